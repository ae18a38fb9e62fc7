"""What advise.py tells, kind by kind."""
