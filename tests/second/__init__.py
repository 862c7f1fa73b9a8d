"""The independent second program: written from documents 01 and 02 alone, sharing no code with the library or its programs."""
