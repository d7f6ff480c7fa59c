"""An implementation of kmsrest's commands by the documents alone, apart from the Rattle code. The stored answers of test_run are made
by it, and the help and the bridges stand on it."""
