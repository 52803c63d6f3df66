-- Seats are taken for a whole party or not at all: an UNDO handler gives back what was taken so far.
CREATE TABLE coach (
  no         INTEGER PRIMARY KEY,
  free_seats INTEGER NOT NULL CHECK (free_seats >= 0)
);
CREATE TABLE booking (
  party VARCHAR(10),
  coach INTEGER,
  seats INTEGER NOT NULL,
  PRIMARY KEY (party, coach)
);

CREATE MODULE reserving
  PROCEDURE take_seats (IN party VARCHAR(10), IN coach_no INTEGER, IN seats INTEGER)
    BEGIN
      DECLARE EXIT HANDLER FOR NOT FOUND
        SIGNAL SQLSTATE '45020' SET MESSAGE_TEXT = 'no coach ' || CAST(coach_no AS VARCHAR(11));
      UPDATE coach SET free_seats = free_seats - seats WHERE no = coach_no;
      INSERT INTO booking VALUES (party, coach_no, seats);
    END;

  PROCEDURE reserve_two (
    IN party VARCHAR(10),
    IN coach_a INTEGER, IN seats_a INTEGER,
    IN coach_b INTEGER, IN seats_b INTEGER,
    OUT outcome VARCHAR(60)
  )
    BEGIN ATOMIC
      DECLARE reason VARCHAR(40);
      DECLARE UNDO HANDLER FOR SQLEXCEPTION
        BEGIN
          GET DIAGNOSTICS EXCEPTION 1 reason = MESSAGE_TEXT;
          SET outcome = 'not reserved: ' || reason;
        END;
      CALL take_seats(party, coach_a, seats_a);
      CALL take_seats(party, coach_b, seats_b);
      SET outcome = 'reserved';
    END;

  PROCEDURE cancel (IN who VARCHAR(10), OUT seats_back INTEGER)
    BEGIN ATOMIC
      SET seats_back = 0;
      FOR b AS bookings CURSOR FOR SELECT coach, seats FROM booking WHERE party = who DO
        UPDATE coach SET free_seats = free_seats + b.seats WHERE no = b.coach;
        DELETE FROM booking WHERE CURRENT OF bookings;
        SET seats_back = seats_back + b.seats;
      END FOR;
    END;
END MODULE
