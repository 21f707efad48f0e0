"""What the tools for people are made of: f32 numbers, OBJ files, polygons, mesh files, listings and the console."""
