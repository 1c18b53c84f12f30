-- What one line of the script does, where NEW.url, NEW.visit_type and NEW.visit_date are its fields.
INSERT INTO moz_places (url, typed)
    VALUES (NEW.url, NEW.visit_type = 2)
    ON CONFLICT (url) DO UPDATE SET typed = 1 WHERE excluded.typed;
INSERT INTO moz_historyvisits (place_id, visit_date, visit_type)
    SELECT id, NEW.visit_date, NEW.visit_type FROM moz_places WHERE url = NEW.url;
-- The frecency of the page on day 0: visit_count times the mean of the ten latest visits, rounded up twice.
INSERT INTO replies (visit, page, frecency)
    SELECT last_insert_rowid(), page, CASE
        WHEN visit_count = 0 THEN 0
        WHEN total = 0 THEN -1
        ELSE (visit_count * ((total + 99) / 100) + sampled - 1) / sampled
    END
    FROM (SELECT id AS page FROM moz_places WHERE url = NEW.url), (
        SELECT count(*) AS sampled, sum(weight * bonus) AS total FROM (
            SELECT CASE
                WHEN 0 - visit_date / 86400000000 <= 4 THEN 100
                WHEN 0 - visit_date / 86400000000 <= 14 THEN 70
                WHEN 0 - visit_date / 86400000000 <= 31 THEN 50
                WHEN 0 - visit_date / 86400000000 <= 90 THEN 30
                ELSE 10
            END AS weight, CASE visit_type
                WHEN 1 THEN 100
                WHEN 2 THEN 2000
                WHEN 3 THEN 75
                WHEN 5 THEN 50
                WHEN 6 THEN 40
                ELSE 0
            END AS bonus
            FROM moz_historyvisits
            WHERE place_id = (SELECT id FROM moz_places WHERE url = NEW.url)
            ORDER BY visit_date DESC, id DESC
            LIMIT 10
        )
    ), (
        SELECT count(*) AS visit_count FROM moz_historyvisits
        WHERE place_id = (SELECT id FROM moz_places WHERE url = NEW.url) AND visit_type NOT IN (4, 7, 8, 9)
    );
