"""A rollout tried over a copy of a store."""
