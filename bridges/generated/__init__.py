"""What protoc makes of bridges/proto; it is written by a program of the repository."""
