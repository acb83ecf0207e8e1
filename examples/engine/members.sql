-- Members to try the engine with, and two products that do not go together.
INSERT INTO members VALUES ('987654321', 5000), ('987654322', 0);
INSERT INTO interactions VALUES ('00093721410', '00093721411'), ('00093721411', '00093721410');
