"""What `bench/fuzz` is made of: requests and texts by a grammar, changes of bytes, connections, files."""
