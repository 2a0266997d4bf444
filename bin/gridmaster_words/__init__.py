"""What the commands here share, by subject: running, names, asking, dates, options, causes of refusals, jobs.

Environment: GRIDMASTER_PORT (else SGE_QMASTER_PORT, else 6444), GRIDMASTER_USER (else the login name), GRIDMASTER_GROUP (else
the login group), GQ (the program gq; else the one beside these commands, else the one on the path).
"""
