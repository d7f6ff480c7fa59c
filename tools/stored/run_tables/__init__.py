"""The tables from which tools/stored/stored run_cases writes the cases of test_run."""
