/* A comment begins with two hyphens and ends with its line. */
SELECT 1;
