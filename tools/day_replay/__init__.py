"""What the scripts in tools/ share: the files of the router, read and replayed, and its exit statuses. It stands outside the proofs."""
