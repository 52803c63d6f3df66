INSERT INTO part VALUES ('bike', 20), ('wheel', 5), ('spoke', 0.25), ('frame', 100), ('hen', 1), ('egg', 1);
INSERT INTO component
  VALUES ('bike', 'wheel', 2), ('bike', 'frame', 1), ('wheel', 'spoke', 32), ('hen', 'egg', 1), ('egg', 'hen', 1);
CALL quote('bike', ?);
CALL list_parts('bike', 1, 0);
SELECT * FROM pick_list;
CALL quote('egg', ?);    -- an egg of a hen of an egg: at most 64 routines run at once
CALL quote('bell', ?);   -- no such part, so the cost is null
