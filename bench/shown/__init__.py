"""What ./show must print, worked out apart from it: trees, looks, words and examples, and pages as a browser reads them."""
