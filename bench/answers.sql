.mode tabs
SELECT 'visit', visit, 'page', page, 'frecency', frecency FROM replies ORDER BY visit;
