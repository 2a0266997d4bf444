"""What gridmaster-load does, by subject: reading a folder, translating each kind of object, trying and narrowing it on a new
cluster, bringing it over, and the report.
"""
