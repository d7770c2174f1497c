"""What tools/page, tools/elements and tools/cut all know: how a tool is run and says what is wrong, the cutting of a part,
the control sequences, codes, letters, widths, the sheet."""
