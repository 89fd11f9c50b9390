"""The companions of pops: programs that write problems for it and read its reports."""
