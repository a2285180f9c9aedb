"""Hand-written cases of the syntax stages. @ marks the place of decline 7 (no @: the text is right so far); S[...] other numbers."""
M = r'''

;
;;;
   \n  \n
%only a comment%
 %a% ; %b% ;\n
@INT A
@A
@1
@"S"
@(
@)
@ENDPROC
@:=
@LET A = 1
@TITLE X
@OPTION (1)
@CODE
@SVC PROC () F
@STACK S 10
@RTL
@VAL A := 1
@BEGIN
;@A
; @, ;
DATA D; ENDDATA @DATA E; ENDDATA
DATA D; ENDDATA @X
PROC P (); ENDPROC @PROC Q (); ENDPROC
PROC P (); ENDPROC @.
PROC P (); ENDPROC; PROC Q (); ENDPROC;
MODE M (INT A)@, MODE N (INT A)
ENT@
ENT @;
ENT @MODE M (INT A)
ENT @EXT PROC () INT INBYTE
ENT @ENT DATA D; ENDDATA
ENT @P
ENT DATA D; ENDDATA
ENT PROC P (); ENDPROC
ent proc p (); endproc; data d; enddata
EXT PROC () INT INBYTE
EXT PROC (BYTE) OUTBYTE
EXT PROC () INT INBYTE; EXT PROC (BYTE) OUTBYTE;
EXT PROC (INT, REF INT, REF ARRAY BYTE, REF M) REF M F, G
EXT@
EXT @;
EXT @MODE M (INT A)
EXT @STACK S
EXT @F
EXT @ENT PROC P (); ENDPROC
EXT PROC@
EXT PROC @F (INT A); ENDPROC
EXT PROC (@, INT) F
EXT PROC (@M) F
EXT PROC (INT @A) F
EXT PROC (INT, @) F
EXT PROC (INT, @M) F
EXT PROC (INT @; F
EXT PROC (@(INT)) F
EXT PROC (@ARRAY (3) INT) F
EXT PROC (REF ARRAY () INT) F
EXT PROC (REF ARRAY @) F
EXT PROC (INT@
EXT PROC ()@
EXT PROC () @;
EXT PROC () @1
EXT PROC () INT @;
EXT PROC () INT @INT F
EXT PROC () REF @;
EXT PROC () @ARRAY (3) INT F
EXT PROC () M @N
EXT PROC () F, @INT
EXT PROC () F,@
EXT PROC () F @G
EXT PROC () F @(
EXT PROC () F @:= 1
EXT DATA D; ENDDATA
EXT DATA D; INT A, B; ARRAY (3) M C; M E, F; REF INT G; ; ARRAY (2) REF ARRAY () BYTE H ENDDATA
EXT DATA@
EXT DATA @; ENDDATA
EXT DATA @DATA
EXT DATA D @ENDDATA
EXT DATA D@
EXT DATA D;@
EXT DATA D; INT A @:= 1 ENDDATA
EXT DATA D; INT @; ENDDATA
EXT DATA D; ARRAY @INT A ENDDATA
EXT DATA D; ARRAY (2) INT @ENDDATA
EXT DATA D; INT A @B ENDDATA
EXT DATA D; INT A, @ENDDATA
EXT DATA D; M @; ENDDATA
EXT DATA D; INT A @ENDPROC
EXT DATA D; @PROC () F ENDDATA
EXT DATA D; INT A;@
EXT DATA D; ENDDATA @ENDDATA
MODE M (INT A)
MODE M (INT A, B, BYTE C, REF INT E, F, REF M G, REF ARRAY M H, REF ARRAY () REF INT I)
MODE@
MODE @(INT A)
MODE @INT (INT A)
MODE M@
MODE M @;
MODE M @INT A
MODE M (@)
MODE M (@A)
MODE M (@M A)
MODE M (@ARRAY (3) INT A)
MODE M (@, INT A)
MODE M (INT @)
MODE M (INT @, A)
MODE M (INT @INT A)
MODE M (INT A@; INT B)
MODE M (INT A @INT B)
MODE M (INT A, @)
MODE M (INT A, @ARRAY (2) INT B)
MODE M (INT A, @1)
MODE M (INT A, B @:= 3)
MODE M (INT A@
MODE M (INT A) @N
MODE M (INT A)@(INT B)
MODE M (REF @) 
DATA D; REF @REF INT R ENDDATA
DATA D; REF @(INT) R ENDDATA
DATA D; REF @; ENDDATA
DATA D; REF @ENDDATA
DATA D; REF @REAL R ENDDATA
DATA D; REF @PROC () F ENDDATA
DATA D; REF INT @; ENDDATA
DATA D; REF M @, R ENDDATA
DATA D; REF ARRAY @ARRAY INT R ENDDATA
DATA D; REF ARRAY (@,) INT R ENDDATA
DATA D; REF ARRAY (@3) INT R ENDDATA
DATA D; REF ARRAY () R @; ENDDATA
DATA D; REF ARRAY R @; ENDDATA
DATA D; REF ARRAY () @ARRAY INT R ENDDATA
DATA D; REF ARRAY () @(INT) R ENDDATA
DATA D; REF ARRAY () @() INT R ENDDATA
DATA D; REF ARRAY @; ENDDATA
DATA D; REF ARRAY REF @REF INT R ENDDATA
DATA D; REF ARRAY REF ARRAY () REF M R; REF ARRAY M S; REF ARRAY () M T ENDDATA
DATA D; ARRAY @INT A ENDDATA
DATA D; ARRAY (@) INT A ENDDATA
DATA D; ARRAY (@N) INT A ENDDATA
DATA D; ARRAY (2@,3) INT A ENDDATA
DATA D; ARRAY (@-1) INT A ENDDATA
DATA D; ARRAY (@"S") INT A ENDDATA
DATA D; ARRAY (3 @INT A ENDDATA
DATA D; ARRAY (3 @+ 1) INT A ENDDATA
DATA D; ARRAY (@(3)) INT A ENDDATA
DATA D; ARRAY (3) @ARRAY (2) INT A ENDDATA
DATA D; ARRAY (3) @; ENDDATA
DATA D; ARRAY (3) @(INT) A ENDDATA
DATA D; ARRAY (3) INT @; ENDDATA
DATA D; ARRAY (3) M @; ENDDATA
DATA D; ARRAY (3) @REAL A ENDDATA
DATA D; ARRAY (3) REF @REF INT A ENDDATA
DATA D; ARRAY (3) REF M A, B := (), C := E := "S" ENDDATA
DATA D; ARRAY ('A') INT A; ARRAY (HEX F) M B ENDDATA
DATA@
DATA @;
DATA @PROC
DATA @1; ENDDATA
DATA D@
DATA D @ENDDATA
DATA D @, E
DATA D;@
DATA D; @ENDPROC
DATA D; @1
DATA D; @LABEL L ENDDATA
DATA D; @REAL X ENDDATA
DATA D; @STACK S ENDDATA
DATA D; @PROC () F ENDDATA
DATA D; @:= 3 ENDDATA
DATA D; @DATA E; ENDDATA
DATA D; INT @ENDDATA
DATA D; INT @1 ENDDATA
DATA D; INT @INT A ENDDATA
DATA D; INT A @INT B ENDDATA
DATA D; INT A @ENDPROC
DATA D; INT A, @ENDDATA
DATA D; INT A, @INT B ENDDATA
DATA D; INT A @= 3 ENDDATA
DATA D; INT A @(3) ENDDATA
DATA D; INT A;@
DATA D; M @ENDDATA
DATA D; M @(3) ENDDATA
DATA D; M N @O ENDDATA
DATA D; M @:= 3 ENDDATA
DATA D; ; ; INT A; ; ENDDATA
DATA D; INT A, B := 1, C; BYTE E; M F := (1, -2, +3), G ENDDATA
DATA D; INT A :=@
DATA D; INT A := @; ENDDATA
DATA D; INT A := @ENDDATA
DATA D; INT A := @, B ENDDATA
DATA D; INT A := B := @; ENDDATA
DATA D; INT A := B := C := 3 ENDDATA
DATA D; INT A := B := C ENDDATA
DATA D; INT A := 3 @:= 4 ENDDATA
DATA D; INT A := "S" @:= 4 ENDDATA
DATA D; INT A := (1) @:= 4 ENDDATA
DATA D; INT A := -1 @:= 4 ENDDATA
DATA D; INT A := B @B ENDDATA
DATA D; INT A := - @A ENDDATA
DATA D; INT A := - @- 1 ENDDATA
DATA D; INT A := + @"S" ENDDATA
DATA D; INT A := - @; ENDDATA
DATA D; INT A := 1 @+ 1 ENDDATA
DATA D; INT A := (1) @+ 1 ENDDATA
DATA D; INT A := (1)@(2) ENDDATA
DATA D; REF INT R := G@(3) ENDDATA
DATA D; REF INT R := G@.A ENDDATA
DATA D; INT A := @VAL B ENDDATA
DATA D; INT A := @INT ENDDATA
DATA D; INT A := @NOT 1 ENDDATA
DATA D; INT A := @* 1 ENDDATA
DATA D; ARRAY (2) INT A := (@, 1) ENDDATA
DATA D; ARRAY (2) INT A := (1, @) ENDDATA
DATA D; ARRAY (2) INT A := (1 @2) ENDDATA
DATA D; ARRAY (2) INT A := (1 @; ENDDATA
DATA D; ARRAY (2) INT A := (1(@)) ENDDATA
DATA D; ARRAY (2) INT A := (1(@N)) ENDDATA
DATA D; ARRAY (2) INT A := (1(2 @3)) ENDDATA
DATA D; ARRAY (2) INT A := (1(2@,3)) ENDDATA
DATA D; ARRAY (2) INT A := (1(2)@(3)) ENDDATA
DATA D; ARRAY (2) INT A := (1(@-2)) ENDDATA
DATA D; ARRAY (2) INT A := (B @:= 1) ENDDATA
DATA D; ARRAY (2) INT A := (1 @+ 2) ENDDATA
DATA D; ARRAY (2) INT A := (@* 2) ENDDATA
DATA D; ARRAY (2) INT A := (- @A) ENDDATA
DATA D; ARRAY (2) INT A := (B@.C) ENDDATA
DATA D; ARRAY (2) INT A := (1@
DATA D; ARRAY (2) INT A := (@
DATA D; ARRAY (2) INT A := (1(2@
DATA D; INT A := ((1, 2)(3), ()(0), "S"(2), B(2), -1(2), (((4)))) ENDDATA
DATA D; INT A := () ENDDATA
PROC@
PROC @(
PROC @END (); ENDPROC
PROC @1 (); ENDPROC
PROC P@
PROC P @; ENDPROC
PROC P @INT A; ENDPROC
PROC P (@
PROC P (@A); ENDPROC
PROC P (@,); ENDPROC
PROC P (@ARRAY (3) INT A); ENDPROC
PROC P (@REAL A); ENDPROC
PROC P (@(INT A)); ENDPROC
PROC P (INT @); ENDPROC
PROC P (INT @, BYTE); ENDPROC
PROC P (INT A @INT B); ENDPROC
PROC P (INT A, @); ENDPROC
PROC P (INT A, @1); ENDPROC
PROC P (INT A, B, BYTE C, @REAL E); ENDPROC
PROC P (INT A @:= 1); ENDPROC
PROC P (INT A@; INT B); ENDPROC
PROC P (REF @); ENDPROC
PROC P (INT A@
PROC P () @M; ENDPROC
PROC P () @ENDPROC
PROC P () INT @ENDPROC
PROC P () INT @INT; ENDPROC
PROC P () @ARRAY (3) INT; ENDPROC
PROC P () REF @; ENDPROC
PROC P () REF ARRAY @; ENDPROC
PROC P () REF ARRAY (@
PROC P ()@
PROC P () INT@
PROC P ();@
PROC P (); @ENDDATA
PROC P (); @PROC Q (); ENDPROC
PROC P (); @DATA D; ENDDATA
PROC P (); @MODE M (INT A);
PROC P (); ENDPROC @ENDPROC
PROC P (); ENDPROC @INT
PROC P (); ENDPROC;
PROC P () REF ARRAY () BYTE; ENDPROC
PROC P () REF ARRAY M; ENDPROC
PROC P (REF M A, B, INT C, REF ARRAY () M E) REF M; ENDPROC
'''
# inside PROC P (); ... ENDPROC
P = r'''
INT A @
INT A; 
INT @
INT @;
INT @REF INT A;
INT A, @;
INT A @B;
INT A := @;
INT A := 1 @
INT A := 1 @B := 2;
; @INT A;
A := 1; @INT B;
INT A;; @INT B;
@ARRAY (3) INT A;
@REAL A;
@LABEL L;
M @X;
REF M X;
REF ARRAY () REF ARRAY M X, Y; BYTE Z; REF BYTE W;
REF @REF INT X;
REF M @;
INT A := B := C + 1, E, F := G := 1;
INT A := B(1) @:= 2;
INT A := B + C @:= 2;
INT A := (B) @:= 2;
INT A := B.C @:= 2;
INT A := 1 @:= 2;
INT A := F() @:= 2;
INT A := - B @:= 2;
INT A := @VAL B := 2;
INT A := B := @;
INT A @= 3;
INT A := B @= 3;
IF A = B THEN @INT C; END
IF A = B THEN ELSE @BYTE C; END
WHILE A = B DO @INT C; REP
WHILE A = B DO @REF INT C; REP
TO 3 DO INT C; C := 1 REP
TO 3 DO REF INT C := A; C := B; REP
BLOCK INT C; ENDBLOCK
BLOCK; @INT C; ENDBLOCK
TO 3 DO ; @INT A; REP
A@;
A @
A @= 1
A @B := 1
A @+ 1
A := @;
A := @
A := 1 @2
A := B @C
A := B @"S"
A := 1 @:= 2
A() @:= 3
A(1,2) @:= 3
A(1) := 3
A.B := 3
A.B(1).C(2)(3) := 4
A(); A(1); A(1, 2); A("S", (B), -C)
A.B@;
A.B @
A(1)(2)@;
A(1).B @
A(1)(2) @END
A(1)@, B
A(1) @+ 1
A.@1 := 2
A.@(1) := 2
A.@INT := 2
A.@;
A(1)(@) := 2
A(1)(2@,3) := 2
A.B(@) := 2
A.B(1@,2) := 2
A(1).B(@)
A()@(1)
A()@.B := 1
A(1,2)@.B := 1
A(1,2)@(3) := 1
A(@,1)
A(1,@)
A(1 @2)
A(1@;
A(@:= 1)
A := B := C := 1
A := B(1) := C.E := VAL F := 2
A := B(I + 1) := 2
VAL A := VAL B.C := D(1).E := 3
A := B + C @:= 1
A := (B) @:= 1
A := F() @:= 1
A := F(1,2) @:= 1
A := - B @:= 1
A := NOT B @:= 1
A := "S" @:= 1
A := B * C(1) @:= 1
A := B := C + 1 @:= 2
A := (B(1)) @:= 2
A := B(1)(2) := 3
A := F(1) := 3
A := VAL B@;
A := VAL B @
A := VAL B @+ 1
A := VAL @1 := 2
A := VAL @VAL B := 2
A := VAL B := @;
A := VAL B(@)
A := B + @VAL C
A := (@VAL C)
VAL @;
VAL @VAL A := 1
VAL @(A) := 1
VAL @1 := 1
VAL A@;
VAL A @= 1
VAL A(@) := 1
VAL A(1@,2) := 1
VAL A(1)@;
VAL A.@;
VAL A.B(1) := 2
A := VAL B(@) := 1
A := VAL B(1@,2) := 1
@(A) := 1
@1 := A
@"S" := A
@+ A := 1
@- A := 1
@NOT A := 1
@:= 1
@. 
L@: A := 1
@GOTO L
@SWITCH A OF L
@FOR I := 1 TO 3 DO REP
@CODE 1, 2
@LET A = 3
@PROC Q (); ENDPROC
@MODE M (INT A)
@EXT PROC () INT INBYTE
@ENT
X := 1@.5
X := @IF A = B THEN 1 ELSE 2 END
X := A @/ B
X := A @// B
X := A @: B
X := A @SLL 2
X := A @SHA 2
X := @INT A
X := @REAL A
X := @FRAC A
RETURN
RETURN (A)
RETURN @A
RETURN @:= 1
RETURN (@)
RETURN (A@, B)
RETURN (A @= B)
RETURN (A) @+ 1
RETURN (A)@(1)
RETURN (A)@.B
RETURN (A) @:= 1
RETURN (A@;
RETURN @VAL
IF A = B THEN END
IF A = B THEN ELSEIF C = E THEN ELSEIF C = F THEN ELSE END
IF A = B THEN ;;ELSE; A := 1; END; B := 2
IF @THEN END
IF @= B THEN END
IF A @THEN END
IF A = @THEN END
IF A = B @END
IF A = B @DO END
IF A = B @; END
IF A = B @ELSE END
IF A = B THEN @
IF A = B THEN @REP
IF A = B THEN A := 1 @THEN END
IF A = B THEN ELSE @ELSEIF A = B THEN END
IF A = B THEN ELSE @ELSE END
IF A = B THEN ELSE @
IF A = B THEN ELSEIF @THEN END
IF A = B THEN ELSEIF A @THEN END
IF A = B THEN ELSEIF A = B @ELSE END
IF A = B THEN END @END
IF A = B THEN END @A := 1
IF A = B @= C THEN END
IF A < B @< C THEN END
IF A @:= B THEN END
IF (A @= B) THEN END
IF @NEV A = B THEN END
IF (A) = (B) THEN END
IF NOT A = - B THEN END
IF A = B AND @THEN END
IF A = B AND C @THEN END
IF A = B OR @OR C = E THEN END
IF A @AND B = C THEN END
IF A = B AND C # E OR F < G AND G <= H OR H > I OR I >= J AND J :=: K OR K :#: L THEN END
IF A :=: B @:=: C THEN END
IF F() = F(1) THEN END
IF A = B THEN BLOCK INT C; ENDBLOCK END
@ELSE
@THEN
@END
@ELSEIF
IF @
WHILE A = B DO REP
WHILE A = B DO A := 1; REP
WHILE @DO REP
WHILE A @DO REP
WHILE A = @DO REP
WHILE A = B @; REP
WHILE A = B @THEN REP
WHILE A = B DO @END
WHILE A = B DO @
WHILE A = B DO REP @REP
WHILE A = B DO A := 1 @DO REP
@DO REP
@REP
TO 3 DO REP
TO (3) DO REP
TO F(1) + 2 DO INT A; REP
TO @DO REP
TO 3 @; REP
TO 3 @= 4 DO REP
TO 3 @THEN
TO 3 @TO 4 DO REP
TO @VAL A DO REP
TO I @:= 3 DO REP
TO 3 @BY 2 DO REP
TO 3 DO @END
TO 3 DO @
TO 3 DO INT A @REP
BLOCK ENDBLOCK
BLOCK INT A; A := 1; BLOCK INT A; ENDBLOCK ENDBLOCK
BLOCK @
BLOCK @END
BLOCK @REP
BLOCK INT A @ENDBLOCK
BLOCK ENDBLOCK @ENDBLOCK
BLOCK ENDBLOCK @BLOCK ENDBLOCK
@ENDBLOCK
A := @* B
A := @LAND B
A := B + @;
A := B * @* C
A := B :/ @:/ C
A := B MOD @MOD C
A := B LAND @LOR C
A := B LOR @LAND C
A := B NEV @;
A := NOT @;
A := ABS @= B
A := LENGTH @)
A := BYTE @INT B
A := - @END
A := + - ABS NOT BYTE LENGTH B
A := B + -C - - E
A := B :/ C MOD E LAND F LOR G NEV H * I
A := (B@;
A := (@)
A := (B @C)
A := (B@, C)
A := (B)@(1)
A := (B)@.C
A := (@:= 1)
A := 1@(2)
A := 1@.B
A := "S"@(1)
A := "S"@.B
A := B @NOT C
A := B @ABS C
A := F(@, 1)
A := F(1, @)
A := F(1 @2)
A := F(1@;
A := F(1, 2@;
A := F(A @= B)
A := F(A @:= B)
A := F(@INT)
A := F(BYTE A, "S", (1))
A := B(1)(2).C(3).E
A := F()@(1)
A := F()@.B
A := F(1, 2)@.A
A := F(1, 2)@(3)
A := B(1)(2@, 3)
A := B(1)(@)
A := B.C(@)
A := B.C(1@, 2)
A := B.@;
A := B.@INT
A := B.@1
A := B.C@: E
A := B @= C
A := B @< C
A := B @:=: C
A := B @AND C
A := B @ENDBLOCK
A := B @THEN
A := 'A' + HEX F + BIN 1 + OCT 7 + hex FF
A := @HEX G
A := @BIN 2
A := @OCT\n7
A := HEX 1@f
A := 12@AB
A := 1@'A'
A := "A"@"B"
A := @,
A := @ENT
'''
# (text with @, number) for other declines, or for texts that are put together
S = []
def deep(openers, n, mid, closers, head='PROC P (); ', tail=' ENDPROC'):
    o = [openers] * n
    if n > 32: o[32] = '@' + o[32]
    return head + ''.join(o) + mid + ''.join([closers] * n) + tail
for o, mid, c, head, tail in (
    ('(', 'B', ')', 'PROC P (); A := ', ' ENDPROC'),
    ('BLOCK ', '', ' ENDBLOCK', 'PROC P (); ', ' ENDPROC'),
    ('IF A = B THEN ', '', ' END', 'PROC P (); ', ' ENDPROC'),
    ('(', '1', ')', 'DATA D; INT A := ', ' ENDDATA'),
    ('(', '', ')', 'DATA D; INT A := ', ' ENDDATA'),
    ('BLOCK INT A; ', 'A := 1', '; ENDBLOCK', 'PROC P (); ', ' ENDPROC'),
):
    for n in (31, 32, 33):
        S.append((deep(o, n, mid, c, head, tail), 8 if n == 33 else 0))
for o, at in (('WHILE A = B DO ', 12), ('TO 3 DO ', 5)):
    for n in (32, 33):
        l = [o] * n
        if n == 33: l[32] = o[:at] + '@' + o[at:]
        S.append(('PROC P (); ' + ''.join(l) + 'REP ' * n + 'ENDPROC', 8 if n == 33 else 0))
for o, head in (('A(', 'PROC P (); B := '), ('F(1, ', 'PROC P (); B := '), ('F(', 'PROC P (); ')):
    for n in (32, 33):
        l = [o] * n
        if n == 33: l[32] = o.replace('(', '@(')
        S.append((head + ''.join(l) + '0' + ')' * n + ' ENDPROC', 8 if n == 33 else 0))
B = 'BLOCK '
S += [
    ('PROC P (); ' + B * 32 + 'REF ARRAY @() INT R := S; ' + 'ENDBLOCK ' * 32 + 'ENDPROC', 8),
    ('PROC P (); ' + B * 31 + 'REF ARRAY () INT R := S; ' + 'ENDBLOCK ' * 31 + 'ENDPROC', 0),
    ('PROC P (); ' + B * 32 + 'RETURN @(1) ' + 'ENDBLOCK ' * 32 + 'ENDPROC', 8),
    ('PROC P (); ' + B * 32 + 'RETURN ' + 'ENDBLOCK ' * 32 + 'ENDPROC', 0),
    ('PROC P (); ' + B * 32 + 'F@() ' + 'ENDBLOCK ' * 32 + 'ENDPROC', 8),
    ('PROC P (); ' + B * 32 + 'WHILE A = B @DO REP ' + 'ENDBLOCK ' * 32 + 'ENDPROC', 8),
    ('PROC P (); ' + B * 32 + 'TO A @DO REP ' + 'ENDBLOCK ' * 32 + 'ENDPROC', 8),
    ('PROC P (); ' + B * 32 + '@IF A = B THEN END ' + 'ENDBLOCK ' * 32 + 'ENDPROC', 8),
    ('PROC P (); ' + B * 32 + 'A := B @IF ' + 'ENDBLOCK ' * 32 + 'ENDPROC', 7),
    ('PROC P (); ' + B * 32 + 'A := 1 @( ' + 'ENDBLOCK ' * 32 + 'ENDPROC', 7),
    ('PROC P (); ' + B * 32 + 'A @BLOCK ' + 'ENDBLOCK ' * 32 + 'ENDPROC', 7),
    ('PROC P (); ' + B * 32 + '@DO REP ' + 'ENDBLOCK ' * 32 + 'ENDPROC', 7),
    ('PROC P (); ' + B * 32 + 'A := 1 @:= 2 ' + 'BLOCK ENDBLOCK ' + 'ENDBLOCK ' * 32 + 'ENDPROC', 7),
    ('PROC P (); ' + B * 32 + '@BLOCK A B C', 8),
    ('PROC P (); ' + B * 32 + 'ENDBLOCK ' * 32 + '; ' + B * 32 + 'ENDBLOCK ' * 32 + 'ENDPROC', 0),
    ('PROC P (); ' + B * 31 + 'A := (B) + (C); F(1); IF A = B THEN ELSEIF A = C THEN ELSE END ' + 'ENDBLOCK ' * 31 + 'ENDPROC', 0),
    ('DATA D; INT A := ' + '(' * 31 + '1(2)' + ')' * 31 + ' ENDDATA', 0),
    ('DATA D; INT A := ' + '(' * 32 + '1@(2)' + ')' * 32 + ' ENDDATA', 8),
    ('DATA D; INT A := ' + '(' * 32 + '@(' + '(', 8),
    ('PROC P (); A := ' + '(' * 32 + '@', 7),
    ('PROC P (); A := ' + '(' * 32 + '@)', 7),
    ('PROC P (); A := ' + '(' * 32 + '1' + ')' * 32 + '@) ENDPROC', 7),
    ('PROC P (); A(' + '(' * 31 + '1' + ')' * 31 + ')(' + '(' * 31 + '1' + ')' * 31 + ') := 2 ENDPROC', 0),
    ('PROC P (); IF ' + '(' * 31 + 'A' + ')' * 31 + ' = ' + '(' * 31 + 'A' + ')' * 31 + ' THEN END ENDPROC', 0),
    ('PROC P (); IF ' + '(' * 31 + '@(A', 8),
    ('PROC P (); TO ' + '(' * 32 + 'A' + ')' * 32 + ' DO REP ENDPROC', 0),
]
S += [
    # the item stages come before the syntax
    ("'a@b'", 3), ("'@\"'", 3), ("''@A", 3), ('A @$', 3), ('ENDPROC @!', 3), ('@_A', 3), ('"AB@\\n"', 3), ('%AB@\\n%', 3), ('"A@#B"', 3),
    ("@''", 4), ("A @'", 4), ("@'A", 4), ('ENDPROC @"AB', 4), ('@%AB', 4), ('@"', 4), ('DATA D; ENDDATA @%', 4),
    ('@32768', 5), ('PROC P (); A := -@32768 ENDPROC', 5), ('@HEX 8000', 5), ('ENDPROC @99999 !', 5), ('@! 99999', 3), ('PROC P (); A := @`', 3), ('@OCT 100000', 5),
    ('DATA D; INT A := 0032767 ENDDATA', 0), ('DATA D; INT A := HEX 7FFF ENDDATA', 0), ('DATA D; INT A := OCT 77777, B := BIN 111111111111111 ENDDATA', 0),
    (';' * 4096, 0), (';' * 4096 + '@;', 6), ('@A' + ';' * 4095, 7), ('A' + ';' * 4095 + '@;', 6), ('%c%' + ';' * 4096 + '%c%', 0),
]
# texts that end too early: every front part, by items, of one module; the number of items after which the front part is a module
CUT = ('MODE M ( INT A , REF M B ) ; EXT PROC ( BYTE ) OUTBYTE ; DATA D ; M X := ( 1 , X ) ; ARRAY ( 3 ) INT Y := ( 1 ( 3 ) ) ENDDATA ; '
       'ENT PROC P ( INT A , B ) INT ; INT C := A ; IF C = B AND A # 1 THEN C := Y ( 1 ) ELSEIF A < B THEN ELSE WHILE C > 1 DO C := C - 1 REP END ; '
       'TO 3 DO BLOCK VAL C := X . A ; RETURN ( C ) ENDBLOCK REP ENDPROC').split()
