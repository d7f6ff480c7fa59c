"""A release of kmsrest: what the gate passed over, what stands in it, and its two archives."""
