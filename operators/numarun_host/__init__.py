"""What the operators' programs are made of: what is seen of a machine, what is decided, and what is done."""
