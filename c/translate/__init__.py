"""Makes C99 of scalar LLVM IR, and refuses what it doesn't know."""
