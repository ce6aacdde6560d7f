"""Rules of single scripts that unidecode does not have: what its characters become beside others, and words of addresses whose
spelling does not tell their reading. Each module has rules(): a list of Rule or tuples."""
