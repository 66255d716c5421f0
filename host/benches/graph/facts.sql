-- A table of facts whose triggers carry the side effects of an insertion. A clash raises 10, an unknown
-- property 9 and an unknown class 16, which undoes the statement. Deletion, the form of a ticket and the
-- bound of 2,048 facts are not here.
PRAGMA recursive_triggers = ON;
CREATE TABLE fact (k INTEGER, a INTEGER, b INTEGER, c INTEGER, PRIMARY KEY (k, a, b, c)) WITHOUT ROWID;
CREATE INDEX by_b ON fact (k, b);
CREATE INDEX by_c ON fact (k, c);

-- Rules 4, 5, 6, H2, and 13.
CREATE TRIGGER class AFTER INSERT ON fact WHEN NEW.k = 1 BEGIN
  SELECT RAISE(ABORT, '10') FROM fact WHERE k IN (2, 3, 4) AND a = NEW.a;
  INSERT OR IGNORE INTO fact SELECT 5, NEW.a, 0, 0 WHERE NEW.a <> 0;
END;
CREATE TRIGGER property AFTER INSERT ON fact WHEN NEW.k = 2 BEGIN
  SELECT RAISE(ABORT, '10') FROM fact WHERE k IN (1, 3, 4) AND a = NEW.a;
END;
-- Rule 14.
CREATE TRIGGER individual AFTER INSERT ON fact WHEN NEW.k = 3 BEGIN
  SELECT RAISE(ABORT, '10') FROM fact WHERE k IN (1, 2, 4) AND a = NEW.a;
  INSERT OR IGNORE INTO fact VALUES (9, NEW.a, 0, 0);
END;
CREATE TRIGGER literal AFTER INSERT ON fact WHEN NEW.k = 4 BEGIN
  SELECT RAISE(ABORT, '10') FROM fact WHERE k IN (1, 2, 3) AND a = NEW.a;
END;

-- Rules 19, 7, 18 and 26.
CREATE TRIGGER subclass AFTER INSERT ON fact WHEN NEW.k = 5 BEGIN
  SELECT RAISE(ABORT, '10') WHERE NEW.a = NEW.b;
  SELECT RAISE(ABORT, '10') FROM fact WHERE k = 5 AND a = NEW.b AND b = NEW.a;
  INSERT OR IGNORE INTO fact VALUES (1, NEW.a, 0, 0), (1, NEW.b, 0, 0);
  INSERT OR IGNORE INTO fact SELECT 5, NEW.a, b, 0 FROM fact WHERE k = 5 AND a = NEW.b;
  INSERT OR IGNORE INTO fact SELECT 5, a, NEW.b, 0 FROM fact WHERE k = 5 AND b = NEW.a;
  INSERT OR IGNORE INTO fact SELECT 9, a, NEW.b, 0 FROM fact WHERE k = 9 AND b = NEW.a;
END;

-- Refusal 9, rules 21, 20, H4, 22, 23 and 27.
CREATE TRIGGER subproperty AFTER INSERT ON fact WHEN NEW.k = 6 BEGIN
  SELECT RAISE(ABORT, '9')
    WHERE (SELECT count(*) FROM fact WHERE k = 2 AND a IN (NEW.a, NEW.b)) < 1 + (NEW.a <> NEW.b);
  SELECT RAISE(ABORT, '10') WHERE NEW.a = NEW.b;
  SELECT RAISE(ABORT, '10') FROM fact WHERE k = 6 AND a = NEW.b AND b = NEW.a;
  SELECT RAISE(ABORT, '10') FROM fact x, fact y
    WHERE x.k = 8 AND x.a = NEW.a AND y.k = 8 AND y.a = NEW.b AND (x.b = 1) <> (y.b = 1);
  INSERT OR IGNORE INTO fact SELECT 6, NEW.a, b, 0 FROM fact WHERE k = 6 AND a = NEW.b;
  INSERT OR IGNORE INTO fact SELECT 6, a, NEW.b, 0 FROM fact WHERE k = 6 AND b = NEW.a;
  INSERT OR IGNORE INTO fact SELECT 5, x.b, y.b, 0 FROM fact x, fact y
    WHERE x.k IN (7, 8) AND x.a = NEW.a AND y.k = x.k AND y.a = NEW.b
      AND x.b <> y.b AND x.b <> 1 AND y.b <> 1;
  INSERT OR IGNORE INTO fact SELECT 10, a, b, NEW.b FROM fact WHERE k = 10 AND c = NEW.a;
END;

-- Rules 16, 17, 9 and 10.
CREATE TRIGGER ends AFTER INSERT ON fact WHEN NEW.k IN (7, 8) BEGIN
  SELECT RAISE(ABORT, '10') FROM fact WHERE k = NEW.k AND a = NEW.a AND b <> NEW.b;
  INSERT OR IGNORE INTO fact SELECT 1, NEW.b, 0, 0 WHERE NEW.b <> 1;
END;

-- Refusal 16, rules 11 and 26.
CREATE TRIGGER member AFTER INSERT ON fact WHEN NEW.k = 9 BEGIN
  SELECT RAISE(ABORT, '16') WHERE NOT EXISTS (SELECT 1 FROM fact WHERE k = 1 AND a = NEW.b);
  INSERT OR IGNORE INTO fact VALUES (3, NEW.a, 0, 0);
  INSERT OR IGNORE INTO fact SELECT 9, NEW.a, b, 0 FROM fact WHERE k = 5 AND a = NEW.b;
END;

-- Refusal 9, rules 12, 24, 25, H3 and 27.
CREATE TRIGGER value AFTER INSERT ON fact WHEN NEW.k = 10 BEGIN
  SELECT RAISE(ABORT, '9') WHERE NOT EXISTS (SELECT 1 FROM fact WHERE k = 2 AND a = NEW.c);
  INSERT OR IGNORE INTO fact VALUES (3, NEW.a, 0, 0);
  INSERT OR IGNORE INTO fact SELECT 9, NEW.a, b, 0 FROM fact WHERE k = 7 AND a = NEW.c;
  INSERT OR IGNORE INTO fact SELECT 4, NEW.b, 0, 0 FROM fact WHERE k = 8 AND a = NEW.c AND b = 1;
  INSERT OR IGNORE INTO fact SELECT 9, NEW.b, b, 0 FROM fact WHERE k = 8 AND a = NEW.c AND b <> 1;
  INSERT OR IGNORE INTO fact SELECT 10, NEW.a, NEW.b, b FROM fact WHERE k = 6 AND a = NEW.c;
END;

-- Rule E2, by the value and by the exclusive property; refusal 9.
CREATE TRIGGER second_holder AFTER INSERT ON fact WHEN NEW.k = 10 BEGIN
  SELECT RAISE(ABORT, '10') FROM fact e, fact x
    WHERE e.k = 11 AND e.a = NEW.c AND x.k = 10 AND x.c = NEW.c AND x.b = NEW.b AND x.a <> NEW.a;
END;
CREATE TRIGGER exclusive AFTER INSERT ON fact WHEN NEW.k = 11 BEGIN
  SELECT RAISE(ABORT, '9') WHERE NOT EXISTS (SELECT 1 FROM fact WHERE k = 2 AND a = NEW.a);
  SELECT RAISE(ABORT, '10') FROM fact x, fact y
    WHERE x.k = 10 AND x.c = NEW.a AND y.k = 10 AND y.c = NEW.a AND x.b = y.b AND x.a <> y.a;
END;

INSERT INTO fact VALUES (1, 0, 0, 0);
