"""The page by which players check a round on their own phones: its sources, and what makes docs/check.html of them."""
