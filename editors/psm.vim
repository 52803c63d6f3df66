" SQL/PSM as psm reads it. Written by editors/make.py from the words in docs/formats.md.
if exists('b:current_syntax') | finish | endif
syntax case ignore
syntax match psmComment '--.*$'
syntax region psmText start=+'+ skip=+''+ end=+'+
syntax region psmName start=+"+ skip=+""+ end=+"+
syntax match psmNumber '\<\d\+\(\.\d*\)\?\>\|\.\d\+\>'
syntax keyword psmType CHAR CHARACTER DEC DECIMAL INT INTEGER NUMERIC SMALLINT VARCHAR VARYING
syntax keyword psmFunction AVG CAST CHARACTER_LENGTH CHAR_LENGTH COALESCE COUNT LOWER MAX MIN NULLIF POSITION SUBSTRING SUM TRIM UPPER
syntax keyword psmOperator AND BETWEEN EXISTS IN IS LIKE NOT OR
syntax keyword psmConstant NULL
syntax keyword psmKeyword AS ASC ATOMIC BEGIN BY CALL CASE CHECK CLOSE COMMIT CONDITION CONSTRAINT CONTAINS CONTINUE CREATE CURRENT CURSOR DECLARE DEFAULT DELETE DESC DETERMINISTIC DIAGNOSTICS DO ELSE ELSEIF END ESCAPE EXCEPTION EXIT FETCH FOR FOREIGN FROM FUNCTION GET GROUP HANDLER HAVING IF INNER INOUT INSENSITIVE INSERT INTO ITERATE JOIN KEY LANGUAGE LEAVE LOOP MODIFIES MODULE OF ON OPEN ORDER OUT PRIMARY PROCEDURE READS REFERENCES REPEAT RESIGNAL RETURN RETURNS ROLLBACK SELECT SET SIGNAL SQL SQLEXCEPTION SQLSTATE SQLWARNING STACKED TABLE THEN UNDO UNIQUE UNTIL UPDATE VALUES WHEN WHERE WHILE
syntax keyword psmOther ACTION BOTH CONDITION_IDENTIFIER CONDITION_NUMBER CURSOR_NAME DATA FOUND LEADING MESSAGE_LENGTH MESSAGE_TEXT MORE NEXT NO NUMBER ONLY READ RETURNED_SQLSTATE ROW_COUNT TABLE_NAME TRAILING VALUE WORK
highlight default link psmComment Comment
highlight default link psmText String
highlight default link psmName Identifier
highlight default link psmNumber Number
highlight default link psmType Type
highlight default link psmFunction Function
highlight default link psmOperator Operator
highlight default link psmConstant Constant
highlight default link psmKeyword Statement
highlight default link psmOther Special
let b:current_syntax = 'psm'
