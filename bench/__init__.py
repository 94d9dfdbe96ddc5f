"""What calls and records cost, beside a program without proofs."""
