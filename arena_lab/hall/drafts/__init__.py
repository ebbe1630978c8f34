"""Programs that teams write in the browser, and what came of trying them."""
