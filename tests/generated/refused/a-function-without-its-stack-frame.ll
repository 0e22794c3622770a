attributes #0 = { naked } ; refused
