"""What `bench/stops` records, which images of a crash it makes, and what it looks at in each."""
