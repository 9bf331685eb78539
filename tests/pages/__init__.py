"""What the pages say, beside the files that they speak of."""
