-- What the engine keeps. Amounts are cents; a day is its number in the calendar.
PRAGMA journal_mode = WAL;
PRAGMA synchronous = FULL;
CREATE TABLE IF NOT EXISTS members (cardholder TEXT PRIMARY KEY, deductible INTEGER);
-- Products that do not go together, each pair both ways.
CREATE TABLE IF NOT EXISTS interactions (product TEXT, other TEXT);

-- What it has answered, by what it was asked under: of a claim that it would pay the part that is deductible, of one that it rejects none, nor of a
-- reversal.
CREATE TABLE IF NOT EXISTS answers (pharmacy INTEGER, number INTEGER, request BLOB, place INTEGER, cardholder TEXT, product TEXT,
    prescription INTEGER, fill INTEGER, day INTEGER, deductible INTEGER, said BLOB, PRIMARY KEY (pharmacy, number, place));
CREATE INDEX IF NOT EXISTS answers_of_member ON answers (cardholder);
CREATE INDEX IF NOT EXISTS answers_of_prescription ON answers (pharmacy, prescription);
-- The payments of which it has approved a reversal, whether or not the book has taken them back by now.
CREATE TABLE IF NOT EXISTS approved (authorization TEXT PRIMARY KEY);

-- What the book has, as the feed tells it, and nothing else; `taken_back` is the row that reversed a payment.
CREATE TABLE IF NOT EXISTS ledger (row INTEGER, place INTEGER, pharmacy INTEGER, number INTEGER, ruling TEXT, authorization TEXT,
    cents INTEGER, taken_back INTEGER, PRIMARY KEY (row, place));
CREATE INDEX IF NOT EXISTS ledger_by_number ON ledger (pharmacy, number, place);
CREATE INDEX IF NOT EXISTS ledger_by_authorization ON ledger (authorization);
CREATE TRIGGER IF NOT EXISTS reversed AFTER INSERT ON ledger WHEN new.ruling = 'reversed' BEGIN
    UPDATE ledger SET taken_back = new.row WHERE authorization = new.authorization AND ruling = 'paid';
END;

-- What counts for a member: payments that stand, and what was answered and is in no row yet, so that two claims at once do not both have the
-- same deductible.
CREATE VIEW IF NOT EXISTS standing AS SELECT answers.* FROM answers LEFT JOIN ledger USING (pharmacy, number, place)
    WHERE deductible IS NOT NULL AND (ledger.row IS NULL OR ledger.ruling = 'paid' AND ledger.taken_back IS NULL);
-- How much of each member's deductible is left.
CREATE VIEW IF NOT EXISTS deductibles AS SELECT cardholder, members.deductible - COALESCE((SELECT SUM(standing.deductible) FROM standing
    WHERE standing.cardholder = members.cardholder), 0) AS available FROM members;
-- Whose standing products go together badly with which.
CREATE VIEW IF NOT EXISTS interacting AS SELECT cardholder, interactions.product, other FROM standing JOIN interactions ON other = standing.product;
-- What reversals find their payment by: what the book has paid and not taken back.
CREATE VIEW IF NOT EXISTS paid AS SELECT authorization, pharmacy, prescription, fill, day FROM ledger JOIN answers USING (pharmacy, number, place)
    WHERE ruling = 'paid' AND taken_back IS NULL;
