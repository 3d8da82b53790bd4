"""What the scripts around cqual share: reports, models, diagnoses, baselines. Nothing of it is proved.

All texts of C and all reports are bytes read as Latin-1, so that a column is an index and nothing is lost on the way through; `text_of`
makes Unicode of them where a format asks for it.
"""
