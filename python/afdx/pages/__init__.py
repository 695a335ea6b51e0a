"""Has what pages of pictures share: their frame and style, how pictures look, and numbers and instants in words."""
