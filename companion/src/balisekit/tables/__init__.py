"""What users hand in: tables, workbooks, documents and files of messages, as rows, groups and messages."""
