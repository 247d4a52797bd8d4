"""What the tools share: the files of an experiment read as the program reads them, and the program itself."""
