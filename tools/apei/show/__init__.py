"""A plain reading of what apei-show shows, of fields and layouts taken from the standards, and files to try it on."""
