-- The type of a column is geometry(Point) or geometry(Polygon).
CREATE TABLE zones (zone text, area geometry);
