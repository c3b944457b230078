"""What tools/jg-page makes a page of."""
