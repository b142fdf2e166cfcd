"""What tools/grade is made of: the folder, the runs, the results and the reports."""
