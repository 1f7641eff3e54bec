"""What `bench/refused` refuses, asks and looks at."""
