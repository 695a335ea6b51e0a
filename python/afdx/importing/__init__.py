"""Makes the captures that afdx reads of recordings as they come, by rules."""
