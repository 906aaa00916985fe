"""What the tests of the built program share: calls of it, files of rows, and how a test is told."""
