"""From the tree to a text: what no pass touched keeps its layout and its comments."""
