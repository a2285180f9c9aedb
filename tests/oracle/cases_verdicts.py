"""Hand-written cases of whole verdicts: text || number || reason. @ marks the place of the decline; no number: accepted.
$X stands for a prelude, {s} for PROC P (); s ENDPROC; \n for a newline."""
PRE = {
 'N': r'DATA D; INT N, X; BYTE B ENDDATA;\n',
 'R': r'DATA D; INT N; BYTE B; REF INT R := N; REF BYTE Q := B ENDDATA;\n',
 'A': r'DATA D; INT N; ARRAY (3) INT A; ARRAY (3) BYTE S; REF ARRAY INT T := A; REF ARRAY BYTE W := S ENDDATA;\n',
 'M': r'MODE M (INT V, REF M L); MODE K (INT V, REF M L); DATA D; INT N; M E := (1, E); K F := (1, E); ARRAY (2) M G := ((1, E)(2)); REF M H := E; REF K I := F; REF ARRAY M J := G ENDDATA;\n',
 'F': r'DATA D; INT N; BYTE B; ARRAY (3) INT A ENDDATA;\nPROC FI () INT; RETURN (1) ENDPROC; PROC FB () BYTE; RETURN (1) ENDPROC; PROC FR () REF INT; RETURN (N) ENDPROC; PROC FQ () REF BYTE; RETURN (B) ENDPROC; PROC FA () REF ARRAY INT; RETURN (A) ENDPROC; PROC G (INT V, BYTE W); ENDPROC; PROC Z (); ENDPROC; PROC H (INT V) INT; RETURN (V) ENDPROC;\n',
}
C = r'''
 || || the empty text is a module
 \n\n  || || layout only
%nothing% || || a comment only
;;; || || empty module items
DATA D; INT N := 3; ENDDATA; ENT PROC MAIN () INT; N := N + 1; RETURN (N) ENDPROC || || a small whole module
DATA D; BYTE M; ENDDATA;\nPROC P (); M := @M + 1 ENDPROC || 11 || a sum is an INT and does not become a BYTE
DATA D; BYTE M; ENDDATA;\nPROC P (); M := BYTE (M + 1) ENDPROC || || BYTE makes the sum a BYTE
DATA D; INT N := 32767 ENDDATA || || the greatest integer
DATA D; INT N := @32768 ENDDATA || 5 || an integer above 32767
DATA D; INT N := -@32768 ENDDATA || 5 || the sign is an item of its own, so the integer is above 32767
DATA D; INT N := ''' + "'''" + r''' ENDDATA || || the character between two quotes may be a quote
PROC P ();\n  N @!= 1\nENDPROC || 3 || a byte that begins no item
PROC P ();\n@PROC || 7 || a procedure inside a procedure
PROC P ();\n@ || 7 || the text ends inside a procedure, after a newline
PROC P (); @ || 7 || the text ends inside a procedure
PROC P (); ENDPROC;\nPROC Q () INT;\n  RETURN @1\nENDPROC || 7 || RETURN needs brackets
'''
# ------------------------------------------------------------------ scopes, declared twice
C += r'''
DATA D; INT A, @A ENDDATA || 9 || twice in one list
DATA D; INT A; BYTE @a ENDDATA || 9 || case of letters does not count
DATA D; INT A := @A := 1 ENDDATA || 9 || twice before one value
DATA D; INT A ENDDATA; DATA E; INT @A ENDDATA || 9 || the variables of all bricks are in one scope
DATA D; INT @D ENDDATA || 9 || a brick and its own variable are in one scope
DATA D; ENDDATA; DATA @D; ENDDATA || 9 || two bricks of one name
DATA D; ENDDATA; PROC @D (); ENDPROC || 9 || a brick and a procedure of one name
PROC P (); ENDPROC; PROC @P (); ENDPROC || 9 || two procedures of one name
PROC P (); ENDPROC; DATA D; INT @P ENDDATA || 9 || a procedure and a data variable
MODE M (INT A); DATA D; M @M ENDDATA || 9 || a record mode and a data variable
MODE M (INT A); MODE @m (INT B) || 9 || two record modes
MODE M (INT A); PROC @M (); ENDPROC || 9 || a record mode and a procedure
MODE M (INT A, BYTE @A) || 9 || a component twice
MODE M (INT A, @A) || 9 || a component twice in one group
MODE M (INT A); MODE N (INT A) || || the same component in two record modes
MODE M (INT A); DATA D; INT A ENDDATA || || a component and a data variable are in different scopes
MODE M (INT M) || || a component may be called like its record mode
MODE M (INT D); DATA D; INT E ENDDATA || || a component may be called like a brick
EXT PROC () INT INBYTE; PROC @INBYTE () INT; ENDPROC || 9 || a described procedure and a declared one
PROC INBYTE () INT; ENDPROC; EXT PROC () INT @INBYTE || 9 || a declared procedure and a described one
EXT PROC () INT INBYTE, @Inbyte || 9 || described twice
EXT PROC () INT F, @F || 9 || described twice, and described wrongly: the double declaration is sought first
EXT DATA E; INT A ENDDATA; DATA D; INT @A ENDDATA || 9 || a described variable and a declared one
EXT DATA E; INT A, @A ENDDATA || 9 || a described variable twice
EXT DATA E; INT @E ENDDATA || 9 || a described brick and its own variable
PROC P (INT A, BYTE @A); ENDPROC || 9 || a parameter twice
PROC P (INT A); INT @A; ENDPROC || 9 || a parameter and a local of the outermost block
PROC P (INT A); BLOCK INT A; ENDBLOCK ENDPROC || || an inner block declares a parameter's name anew
PROC P (INT A); TO 3 DO INT A; REP ENDPROC || || a TO body declares a parameter's name anew
PROC P (INT P); ENDPROC || || a parameter called like its procedure
{INT A; BYTE @A; } || 9 || a local twice
{INT A := B := @A := 1; } || 9 || a local twice before one value
{BLOCK INT A, @A; ENDBLOCK} || 9 || a local of a block twice
{TO 2 DO INT A; INT @A; REP} || 9 || a local of a TO body twice
{BLOCK INT A; ENDBLOCK; BLOCK INT A; ENDBLOCK} || || the same name in two blocks side by side
{INT A; BLOCK INT A; BLOCK INT A; ENDBLOCK ENDBLOCK} || || the same name in blocks inside one another
DATA D; INT A ENDDATA; {INT A, D, P; } || || locals may be called like anything of the module
PROC P (INT A); ENDPROC; PROC Q (INT A); INT B; ENDPROC || || two procedures with the same names inside
PROC P (); INT A, @A; ENDPROC; PROC P (); ENDPROC || 9 || of two double declarations the earlier place decides
PROC P (); X := 1 ENDPROC; DATA D; INT A, @A ENDDATA || 9 || a double declaration decides before an earlier unknown name
DATA D; REF INT R; INT A, @A ENDDATA || 9 || a double declaration decides before an earlier reference without a value
DATA D; BYTE B := 256; INT @B ENDDATA || 9 || a double declaration decides before an earlier misfit
PROC P (); INT A, A; @END ENDPROC || 7 || the syntax decides before a double declaration
DATA D; ARRAY (5000) INT A; INT @A ENDDATA || 9 || a double declaration decides before the limits
'''
# ------------------------------------------------------------------ names by class
C += r'''
$N{N := @Y} || 10 || an unknown name
$N{@Y := N} || 10 || an unknown destination
$N{N := @D} || 10 || a brick is no variable
$N{@D := 1} || 10 || a brick is no destination
$N{N := @P} || 10 || a procedure is no variable
$N{@P := 1} || 10 || a procedure is no destination
$N{N := x} || || names are found in any case of their letters
MODE M (INT A); {INT N := @M; } || 10 || a record mode is no variable
MODE M (INT A); {@M := 1} || 10 || a record mode is no destination
MODE M (INT A); {INT N := @A; } || 10 || a component is known only behind a point
$N{N := @D.X} || 10 || a brick before a point
$N{N := @P.X} || 10 || a procedure before a point
$N{N := @Y.X} || 10 || an unknown name before a point
$N{N := @Y()} || 10 || an unknown name with empty brackets
$N{N := @X()} || 10 || a variable with empty brackets is no call
$A{N := @A()} || 10 || an array with empty brackets
$A{N := @A(1, 2)} || 10 || an array with two expressions
$A{N := @T(1, U)} || 10 || the class of the name comes before the expressions
$N{N := @D(1)} || 10 || a brick with one expression
$N{N := @Y(Z)} || 10 || an unknown name before its subscript
$A{N := A(1)} || || an array with one expression is an element
$F{N := H(1)} || || a procedure with one expression is a call
$F{N := @H(1).V} || 10 || a procedure's result has no components
$F{N := @H(1)(2)} || 10 || a procedure's result has no elements
$F{@H(1) := 2} || 10 || a procedure is no destination
$F{N := @H(1) := 2} || 10 || a procedure is no second destination
$F{VAL @H(1) := 2} || 10 || a procedure is no destination behind VAL
$F{VAL @FR := 2} || 10 || a procedure without brackets behind VAL
$F{N := @FI} || 10 || a call needs brackets
$A{@A(1)} || 10 || an element is no statement
$N{@N(1)} || 10 || a variable is no procedure statement
$N{@N()} || 10 || a variable with empty brackets is no procedure statement
$N{@D()} || 10 || a brick is no procedure
$N{@Y(Z)} || 10 || an unknown procedure before its parameter
$F{INT Z; @Z()} || 10 || a local hides the procedure
PROC Q (INT P); @P(1) ENDPROC; PROC P (INT A); ENDPROC || 10 || a parameter hides the procedure
PROC P (); P() ENDPROC || || a procedure calls itself
PROC P (); Q() ENDPROC; PROC Q (); ENDPROC || || a procedure declared later
MODE M (INT A); {@M()} || 10 || a record mode is no procedure
PROC P (); N := 1 ENDPROC; DATA D; INT N ENDDATA || || data declared later
PROC P (); BLOCK INT A; ENDBLOCK; @A := 1 ENDPROC || 10 || behind the block its names are gone
PROC P (); TO 2 DO INT A; REP; @A := 1 ENDPROC || 10 || behind the loop the names of its body are gone
PROC P (INT A); ENDPROC; PROC Q (); @A := 1 ENDPROC || 10 || a parameter of another procedure
$N{BLOCK BYTE N; N := 1 ENDBLOCK; N := 256} || || behind the block the outer name counts again
$N{BLOCK BYTE N; N := @256 ENDBLOCK} || 11 || inside the block the inner name counts
$N{BYTE N; BLOCK N := @X ENDBLOCK} || 11 || a local counts in the blocks inside its block
$N{BYTE X; WHILE N > 0 DO X := @N REP} || 11 || a WHILE body is no scope of its own
PROC P (INT A, B); A := B; BLOCK A := B ENDBLOCK ENDPROC || || parameters are variables
'''
# ------------------------------------------------------------------ record modes by name
C += r'''
DATA D; @U X ENDDATA || 10 || an unknown record mode
DATA D; REF @U X ENDDATA || 10 || an unknown record mode behind REF, before the missing value
DATA D; ARRAY (2) @U X ENDDATA || 10 || an unknown record mode as an element
DATA D; REF ARRAY () @U X ENDDATA || 10 || an unknown record mode behind REF ARRAY
DATA D; ARRAY (0) REF @U X ENDDATA || 10 || an unknown record mode also in an empty array
DATA D; INT A; @A X ENDDATA || 10 || a variable is no mode
DATA D; @D X ENDDATA || 10 || a brick is no mode
DATA D; @P X ENDDATA; PROC P (); ENDPROC || 10 || a procedure is no mode
DATA D; INT N; @INBYTE X ENDDATA; EXT PROC () INT INBYTE || 10 || a described procedure is no mode
DATA D; M X ENDDATA; MODE M (INT A) || || a record mode declared later
DATA D; m X ENDDATA; MODE M (INT A) || || a record mode in another case of its letters
MODE M (INT A, REF @U B) || 10 || an unknown record mode in a component
MODE M (REF M A, REF ARRAY M B) || || a record mode that refers to itself
MODE M (REF N A); MODE N (REF M A) || || record modes that refer to one another
MODE M (REF @M M) || 10 || inside the brackets a component hides the record mode
MODE M (REF @N A, INT N); MODE N (INT A) || 10 || a later component hides the record mode too
MODE M (INT N); MODE K (REF N A); MODE N (INT A) || || a component of another record mode hides nothing
MODE M (REF ARRAY @A A); MODE A (INT B) || 10 || hidden as an element's mode too
PROC P (REF @U A); ENDPROC || 10 || an unknown record mode of a parameter
PROC P () REF @U; ENDPROC || 10 || an unknown record mode of a result
PROC P (); REF @U A; ENDPROC || 10 || an unknown record mode of a local, before the missing value
MODE M (INT A); PROC P (REF @M M); ENDPROC || 10 || a parameter hides the record mode of its own
MODE M (INT A); PROC P (INT M, REF @M X); ENDPROC || 10 || a parameter hides the record mode of a later one
MODE M (INT A); PROC P (REF @M X, INT M); ENDPROC || 10 || a later parameter hides it too
MODE M (INT A); PROC P (REF @M X); INT M; ENDPROC || 10 || an outermost local hides it too
MODE M (INT A); PROC P (REF M X); BLOCK INT M; M := 1 ENDBLOCK ENDPROC || || a local of an inner block does not
MODE M (INT A); PROC P (INT M) REF M; ENDPROC || || the result mode is looked up in the module
MODE M (INT A); PROC P () REF M; INT M; ENDPROC || || the result mode is looked up in the module, whatever the locals
MODE M (INT A); DATA D; M E ENDDATA; {REF @M M := E; } || 10 || a local hides the record mode
MODE M (INT A); DATA D; M E ENDDATA; {REF @M X := E; INT M; } || 10 || a later local hides it too
MODE M (INT A); DATA D; M E ENDDATA; {INT M; BLOCK REF @M X := E; ENDBLOCK} || 10 || a local of the block outside hides it
MODE M (INT A); DATA D; M E ENDDATA; {BLOCK INT M; ENDBLOCK; BLOCK REF M X := E; ENDBLOCK} || || a block beside hides nothing
MODE M (INT A); DATA D; M E ENDDATA; {REF M X := E; BLOCK INT M; M := X.A ENDBLOCK} || || the components are found though the name is hidden
MODE M (INT A); PROC P (REF M X); TO 2 DO INT M; REP ENDPROC || || a TO body is a block of its own
PROC P (); N := R.@V ENDPROC; DATA D; INT N; U R ENDDATA || 10 || a record mode that is unknown has no components
PROC P (); R := R ENDPROC; DATA D; REF @U R := R ENDDATA || 10 || before the unknown record mode is reached, its variable agrees with itself
PROC P (); R := Q ENDPROC; DATA D; REF @U R := R; REF U Q := R ENDDATA || 10 || two variables of one unknown record mode agree
PROC P (); R := @Q ENDPROC; DATA D; REF U R := R; REF W Q := R ENDDATA || 11 || two unknown record modes do not agree
PROC P (); R := X ENDPROC; DATA D; REF @U R := X; U X ENDDATA || 10 || a record of an unknown mode gives its address
PROC P (); Q(R) ENDPROC; PROC Q (REF @U A); ENDPROC; DATA D; REF U R := R ENDDATA || 10 || a parameter of an unknown record mode agrees, and its own place decides
PROC P (); N := A(1).@V ENDPROC; DATA D; INT N; ARRAY (3) U A ENDDATA || 10 || an element of an unknown record mode has no components
PROC P (); X := @N + R ENDPROC; DATA D; INT X; REF U R := R; ARRAY (1) INT N ENDDATA || 11 || an array is no operand, before the reference to an unknown record
PROC P (); N := N + @R ENDPROC; DATA D; REF U R := R; INT N ENDDATA || 11 || a reference to an unknown record is no operand
'''
# ------------------------------------------------------------------ used too early
C += r'''
{INT A := @A; } || 10 || a local in its own initial value
DATA D; INT A ENDDATA; {INT A := @A; } || 10 || also where a data variable has the name
{INT A := @B; INT B := 1; } || 10 || a local declared later
DATA D; INT B ENDDATA; {INT A := @B; INT B; } || 10 || also where a data variable has the name
{INT A := @B, B := 1; } || 10 || a later item of the same list
{INT A := 1, B := A; } || || an earlier item of the same list
{INT A := 1; INT B := A; } || || an earlier declaration
{INT A, B := A; } || || an earlier item without a value
{INT A := B := @A; } || 10 || the first of two names before one value
{INT A := B := @B + 1; } || 10 || the second of two names before one value
{INT A := B := 1, C := A + B; } || || both names, in the next item
{BLOCK INT A := @A; ENDBLOCK} || 10 || in a block
{INT A; BLOCK INT A := @A; ENDBLOCK} || 10 || the block's own local, not the outer one
{INT A; BLOCK INT B := A; ENDBLOCK} || || a local of the block outside
{INT A; TO A DO INT B := A; REP} || || a local of the block outside a TO body
{TO 2 DO INT A := @A; REP} || 10 || in a TO body
$A{INT I := A(@I); } || 10 || in a subscript
$F{INT I := H(@I); } || 10 || in a parameter
$F{INT H := @H(1); } || 10 || a procedure hidden by the local being declared
$F{INT I := @H(1); INT H; } || 10 || a procedure hidden by a later local
PROC P (INT A); INT B := A; ENDPROC || || parameters are not too early
$M{INT V := E.V; } || || a component called like the local
$M{INT L := E.L.L.V, V := L; } || || components called like later locals
{TO @A DO INT A; REP} || 10 || the count stands outside the body's block
DATA D; INT A ENDDATA; {TO A DO BYTE A; REP} || || the count is the data variable
DATA D; ARRAY (3) INT A ENDDATA; {TO @A DO INT A; REP} || 11 || the count is the data array and no INT
DATA D; REF INT A := B; INT B ENDDATA || || in a data brick the order plays no part
DATA D; REF INT A := B ENDDATA; DATA E; INT B ENDDATA || || a variable of a later brick
'''
# ------------------------------------------------------------------ EXT
C += r'''
EXT PROC () INT INBYTE; EXT PROC (BYTE) OUTBYTE || || the two descriptions
ext proc () int inbyte; ext proc (byte) outByte || || in any case of letters
EXT PROC () INT @F || 10 || another name
EXT PROC () INT INBYTE, @F || 10 || another name behind INBYTE
EXT PROC () INT @OUTBYTE || 10 || OUTBYTE described as INBYTE
EXT PROC (BYTE) @INBYTE || 10 || INBYTE described as OUTBYTE
EXT PROC () @INBYTE || 10 || INBYTE without its result
EXT PROC () BYTE @INBYTE || 10 || INBYTE with another result
EXT PROC (INT) INT @INBYTE || 10 || INBYTE with a parameter
EXT PROC (INT) @OUTBYTE || 10 || OUTBYTE with an INT
EXT PROC (BYTE, BYTE) @OUTBYTE || 10 || OUTBYTE with two parameters
EXT PROC (BYTE) INT @OUTBYTE || 10 || OUTBYTE with a result
EXT PROC () @OUTBYTE || 10 || OUTBYTE without its parameter
EXT PROC (REF @U) F || 10 || an unknown record mode in a descriptor comes first
EXT PROC () REF @U F || 10 || an unknown record mode of a described result
EXT PROC (REF M) @F; MODE M (INT A) || 10 || a known record mode, and another description
EXT DATA @E; ENDDATA || 10 || every description of data
EXT DATA @E; INT A ENDDATA || 10 || every description of data, with a variable
EXT DATA @E; REF U A ENDDATA || 10 || the brick's name comes before the unknown record mode
PROC P (); A := 1 ENDPROC; EXT DATA @E; INT A ENDDATA || 10 || a described variable is used as described; the description is the error
PROC P (); A := @256 ENDPROC; EXT DATA E; BYTE A ENDDATA || 11 || a described variable has its described mode
PROC P (); @E := 1 ENDPROC; EXT DATA E; BYTE A ENDDATA || 10 || a described brick is no variable
PROC P (); A(1) := C.V; R := A(2) ENDPROC; EXT DATA @E; ARRAY (3) INT A; M C; REF INT R ENDDATA; MODE M (INT V) || 10 || described arrays and records are used as described
PROC P (); A(1).@Y := 1 ENDPROC; EXT DATA E; ARRAY (3) M A ENDDATA; MODE M (INT V) || 10 || a described array of records has its elements' components
DATA D; REF INT R := A ENDDATA; EXT DATA @E; INT A ENDDATA || 10 || a described variable is a data variable for an initial value
DATA D; REF INT R := @A ENDDATA; EXT DATA E; BYTE A ENDDATA || 11 || a described variable of another mode as an initial value
PROC P (); F(1) ENDPROC; EXT PROC (INT) @F || 10 || a described procedure is called as described
PROC P (); F(@256) ENDPROC; EXT PROC (BYTE) F || 11 || a described procedure's parameter has its mode
PROC P (); @F() ENDPROC; EXT PROC (BYTE) F || 11 || a described procedure has its number of parameters
EXT PROC (BYTE) OUTBYTE; {OUTBYTE(@256)} || 11 || OUTBYTE takes a BYTE
EXT PROC (BYTE) OUTBYTE; {OUTBYTE('A'); outbyte(255)} || || OUTBYTE called
EXT PROC (BYTE) OUTBYTE; EXT PROC () INT INBYTE; {OUTBYTE(BYTE INBYTE())} || || both called
EXT PROC () INT INBYTE; {@INBYTE()} || 11 || INBYTE has a result and is no statement
{@OUTBYTE(1)} || 10 || not described, so not known
DATA D; INT INBYTE, OUTBYTE ENDDATA; {INBYTE := OUTBYTE} || || not described, so free names
PROC OUTBYTE (INT A); ENDPROC; {OUTBYTE(256)} || || not described, so a free name of a procedure
'''
# ------------------------------------------------------------------ bringing: INT
C += r'''
$R{N := 0; N := 255; N := 256; N := 32767} || || integers where an INT is wanted
$R{N := N; N := B; N := R; N := Q} || || places of mode INT, BYTE, REF INT and REF BYTE where an INT is wanted
$F{N := FI(); N := FB(); N := FR(); N := FQ()} || || calls with results INT, BYTE, REF INT and REF BYTE where an INT is wanted
$F{N := @FA()} || 11 || a reference to an array is no INT
$A{N := @A} || 11 || an array is no INT
$A{N := @T} || 11 || a reference to an array is no INT
$A{N := @"A"} || 11 || a string is no INT
$A{N := S(1); N := W(1); N := T(1); N := A(S(2))} || || elements where an INT is wanted
$M{N := @E} || 11 || a record is no INT
$M{N := @H} || 11 || a reference to a record is no INT
$M{N := @G} || 11 || an array of records is no INT
$M{N := @G(1)} || 11 || an element that is a record is no INT
$M{N := @E.L} || 11 || a component that refers to a record is no INT
$M{N := E.V; N := H.V; N := G(1).V; N := J(1).V; N := E.L.L.V; N := G(1).L.V} || || components where an INT is wanted
PROC P (INT A, BYTE B, REF INT C, REF BYTE E); A := A; A := B; A := C; A := E ENDPROC || || locals where an INT is wanted
'''
# bringing: BYTE
C += r'''
$R{B := 0; B := 255; B := 'A'; B := HEX FF} || || integers up to 255 are BYTEs
$R{B := @256} || 11 || an integer above 255 is an INT
$R{B := @N} || 11 || an INT does not become a BYTE
$R{B := B; B := Q} || || a BYTE, and a reference to one
$R{B := @R} || 11 || a reference to an INT is no BYTE
$F{B := FB(); B := FQ()} || || calls that give a BYTE
$F{B := @FI()} || 11 || a call that gives an INT
$F{B := @FR()} || 11 || a call that gives a reference to an INT
$A{S(1) := W(2)} || || an element of mode BYTE
$A{S(1) := @A(2)} || 11 || an element of mode INT
$R{B := @1 + 1} || 11 || a sum of BYTEs is an INT
$R{B := @- 1} || 11 || a negative is an INT; the misfit begins at the sign
$R{B := @+ B} || 11 || monadic plus gives an INT
$R{B := @ABS B} || 11 || ABS gives an INT
$R{B := @NOT B} || 11 || NOT gives an INT
$R{B := BYTE N; B := BYTE -1; B := BYTE NOT B} || || BYTE gives a BYTE
$R{B := @BYTE N + 1} || 11 || BYTE comes before the sum
$R{B := B LAND 15; B := 1 LOR 2; B := B NEV Q; B := BYTE N LAND B} || || bit operators on two BYTEs give a BYTE
$R{B := @B LAND 256} || 11 || bit operators with an INT give an INT
$R{B := @N LAND 1} || 11 || bit operators with an INT on the left give an INT
$R{B := @R LOR B} || 11 || a reference to an INT counts as an INT
$R{B := @1 MOD 2} || 11 || a remainder is an INT
$A{S(1) := @LENGTH S} || 11 || LENGTH gives an INT
$R{B := (@N)} || 11 || in brackets the misfit is the inner expression's
$R{B := ((@N + 1))} || 11 || in two brackets the inner sum is the misfit
$R{B := @(N) + 1} || 11 || the sum begins with its bracket
$R{B := (@(N) + 1)} || 11 || the inner sum begins with the second bracket
$R{B := ((BYTE (N + 1)))} || || brackets change nothing
$R{B := @(B) LAND (N)} || 11 || the misfit begins with its first bracket
'''
# bringing: REF of a plain mode
C += r'''
$R{R := N; R := (N); R := R; R := ((R))} || || a data place gives its address, a reference its contents
$R{Q := B; Q := Q} || || the same for BYTE
$R{R := @B} || 11 || no widening behind a reference
$R{Q := @N} || 11 || a reference to a BYTE cannot refer to an INT
$R{R := @Q} || 11 || a reference to a BYTE is no reference to an INT
$R{Q := @R} || 11 || a reference to an INT is no reference to a BYTE
$R{R := @1} || 11 || an integer has no address
$R{R := @N + 0} || 11 || a sum has no address
$R{R := @- N} || 11 || a negative has no address
$R{INT I; R := @I} || 11 || a local has no address
$R{INT I; R := (@I)} || 11 || a local in brackets has no address
PROC P (INT A, REF INT C); C := @A ENDPROC || 11 || a parameter has no address
PROC P (REF INT A, C); A := C ENDPROC || || a parameter that is a reference gives its contents
$R{REF INT A := R, C := N, E := A; A := C} || || locals that are references
$R{REF INT A := @B; } || 11 || a local's initial value of another mode
$F{REF INT A := FR(); } || || a call that gives a reference
$F{REF INT A := @FI(); } || 11 || a call that gives an INT has no address
$F{REF INT A := @FQ(); } || 11 || a call that gives a reference to a BYTE
DATA D; ARRAY (3) INT A; INT N; REF INT R := N ENDDATA; {R := A(1); R := A(N)} || || an element has an address
DATA D; ARRAY (3) BYTE A; INT N; REF INT R := N ENDDATA; {R := @A(1)} || 11 || an element of another mode
DATA D; ARRAY (3) INT A; INT N; REF INT R := N ENDDATA; {R := @A} || 11 || an array is no place of mode INT
$M{REF INT R := E.V, O := H.V, U := G(1).V; } || || a component has an address
$A{REF BYTE Y := W(1), Z := S(2); } || || elements of a string's array, reached by a reference, have addresses
$A{REF INT Y := @W(1); } || 11 || an element of mode BYTE gives no reference to an INT
'''
# bringing: REF ARRAY and REF record
C += r'''
$A{W := "abc"; W := ""; W := S; W := W; W := (S)} || || a string, an array and a reference where a reference to an array of BYTE is wanted
$A{T := A; T := T} || || an array and a reference where a reference to an array of INT is wanted
$A{T := @"abc"} || 11 || a string is no array of INT
$A{T := @S} || 11 || an array of BYTE is no array of INT
$A{W := @A} || 11 || an array of INT is no array of BYTE
$A{W := @T} || 11 || a reference to an array of INT
$A{W := @S(1)} || 11 || an element is no array
$A{W := @'A'} || 11 || an integer is no string
$F{REF ARRAY INT O := FA(); REF ARRAY () INT U := A; O := U} || || a call's reference to an array, and empty brackets in a mode
DATA D; ARRAY (2) REF INT A := (N, N); INT N; REF ARRAY REF INT T := A; REF ARRAY INT O := B; ARRAY (4) INT B ENDDATA; {T := A; O := @A} || 11 || an array of references is no array of INT
DATA D; ARRAY (2) INT A; ARRAY (0) INT B; REF ARRAY INT T := A ENDDATA; {T := B} || || the length is no part of the mode
$M{H := E; H := H; H := E.L; H := G(1); H := J(2); H := (E)} || || records, references and components where a reference to a record is wanted
$M{H := @F} || 11 || a record of another mode with the same components
$M{H := @I} || 11 || a reference to a record of another mode
$M{H := I.L; I := F} || || a component of the wanted mode
$M{H := @G} || 11 || an array of records is no record
$M{H := @J} || 11 || a reference to an array of records
$M{H := @E.V} || 11 || a component of mode INT
$M{J := G; J := J} || || an array of records where a reference to it is wanted
$M{J := @E} || 11 || a record is no array of records
MODE mill (INT A); DATA D; MILL E; REF Mill R := E ENDDATA; {R := E} || || record modes agree by name in any case of letters
PROC P () REF INT; INT A; RETURN (@A) ENDPROC || 11 || the address of a local is not given away
PROC P (REF INT A) REF INT; RETURN (A) ENDPROC || || a reference given on
PROC P () REF ARRAY BYTE; RETURN ("abc") ENDPROC || || a string as a result
$M PROC Q () REF M; RETURN (E) ENDPROC; {H := Q()} || || a reference to a record as a result
$M PROC Q () REF M; RETURN (@F) ENDPROC || 11 || a record of another mode as a result
'''
# ------------------------------------------------------------------ order of judging
C += r'''
$A{N := @A + U} || 11 || the left operand is required at once
$A{N := @U + A} || 10 || the unknown name comes first
$A{N := N + @A + U} || 11 || the right operand before the next
$A{N := @A * U + 1} || 11 || the left factor is required at once
$A{N := 1 + @A * U} || 11 || the factor inside the right operand
$A{N := @A LAND U} || 11 || the left operand of a bit operator
$A{N := @N(U)} || 11 || the base is checked before the subscript
$A{N := A(@U)} || 10 || the subscript of an array
$A{N := A(@A)} || 11 || a subscript must be an INT
$A{N := A(A(@S))} || 11 || an inner subscript must be an INT
$A{N := A(S(1)); N := A('A' LAND 1)} || || a BYTE widens in a subscript
$A{N := @A(1)(U)} || 11 || the element of an array of INT is no base
$A{N := @N.U} || 11 || the base of a point is checked before the component
$A{N := @A.U} || 11 || an array is no base of a point
$A{A(@S) := U} || 11 || a destination is judged before the expression
$A{@A := U} || 11 || an array as a destination, before the unknown name
$F{G(@A, U)} || 11 || the first parameter before the second
$F{G(1, @U)} || 10 || an unknown name as the second parameter
$F{G(1, @256)} || 11 || the second parameter must be a BYTE
$F{@G(1)} || 11 || too few expressions
$F{G(@A)} || 11 || a misfit inside comes before too few expressions
$F{@G(1, 2, 3)} || 11 || too many expressions
$F{@G(1, 2, A)} || 11 || an expression too many is brought to nothing
$F{G(1, 2, @U)} || 10 || an expression too many is judged all the same
$F{G(1, 2, @A + 1)} || 11 || the parts of an expression too many must fit
$F{G(1, 2, @Z())} || 11 || a procedure without a result as an expression too many
$F{@Z(1)} || 11 || an expression for a procedure without parameters
$F{Z(@U)} || 10 || an unknown name where there is no parameter
$F{@Z(A)} || 11 || an array where there is no parameter is brought to nothing
$F{@G()} || 11 || no expressions for two parameters
$F{@FI()} || 11 || a procedure with a result as a statement
$F{@H(1)} || 11 || a procedure with a result and one expression as a statement
$F{H(@A)} || 11 || the parameter comes before the result
$F{N := @Z()} || 11 || a procedure without a result in an expression
$F{N := @G(1, 2)} || 11 || a procedure without a result, with parameters, in an expression
$F{N := G(1, @N)} || 11 || the parameter comes before the missing result
$F{N := H(@Z())} || 11 || a procedure without a result as a parameter
$F{N := H(H(1)) + H(FB())} || || calls inside calls
$F{N := H(H(@A))} || 11 || a misfit in the inner call
$F{N := @H(1, 2)} || 11 || too many expressions in an expression
$F{N := @G(1)} || 11 || one expression for two parameters, in an expression
$F{N := @FI(1)} || 11 || one expression for no parameter, in an expression
$F{N := FI(@U)} || 10 || an unknown name where there is no parameter, in an expression
$F{N := FI(@A + 1)} || 11 || parts that do not fit where there is no parameter
PROC Q (INT A); ENDPROC; DATA D; INT N ENDDATA; {N := @Q(1)} || 11 || a procedure with one parameter and no result in an expression
PROC Q (INT A); ENDPROC; DATA D; INT N ENDDATA; {N := Q(@"A")} || 11 || the parameter before the missing result
PROC Q (INT A); ENDPROC; DATA D; INT N ENDDATA; {N := 1 + N * @Q(N)} || 11 || a procedure without a result as an operand
PROC Q (REF ARRAY INT A) INT; RETURN (A(1)) ENDPROC; DATA D; INT N; ARRAY (3) INT S ENDDATA; {N := Q(S); N := S(Q(S))} || || an array handed over by its address
PROC Q (REF ARRAY INT A) INT; RETURN (A(1)) ENDPROC; DATA D; INT N; ARRAY (3) INT S ENDDATA; {N := Q(@S(1))} || 11 || an element for a reference to an array
PROC Q (REF INT A); VAL A := A + 1 ENDPROC; DATA D; INT N; ARRAY (3) INT S ENDDATA; {Q(N); Q(S(2))} || || places handed over by their addresses
PROC Q (REF INT A); VAL A := A + 1 ENDPROC; {INT I; Q(@I)} || 11 || a local cannot be handed over by its address
$F{N := H(@"A")} || 11 || a string where an INT is wanted
$F{Z(); G(N, B); G(B, FB()); G(FR(), FQ())} || || right calls
$F{IF N = @U THEN N := A END} || 10 || a condition comes before its sequence
$F{IF N = 1 THEN N := @A ELSE U := 1 END} || 11 || the sequences from left to right
PROC P ();\n  BLOCK\n    INT I;\n    I := 1;\n    @J := I\n  ENDBLOCK\nENDPROC || 10 || lines and columns
'''
# ------------------------------------------------------------------ operators
C += r'''
$R{N := N + B - 1 * R :/ Q MOD 2} || || all operands that become INT
$R{N := + N; N := - B; N := ABS R; N := NOT Q; N := - - ABS NOT 1} || || monadic operators
$A{N := - @A} || 11 || the operand of a monadic operator
$A{N := ABS @"A"} || 11 || a string under ABS
$A{N := BYTE @T} || 11 || a reference to an array under BYTE
$A{N := NOT - (@A)} || 11 || the operand in brackets
$A{N := 1 - @W} || 11 || a right operand that is no INT
$A{N := @W MOD 2} || 11 || a left operand that is no INT
$A{N := N :/ @"A"} || 11 || a string as a divisor
$A{N := LENGTH A; N := LENGTH T; N := LENGTH S; N := LENGTH W; N := LENGTH "abc"; N := LENGTH (A)} || || LENGTH of arrays, references and a string
$F{N := LENGTH FA()} || || LENGTH of a call's result
$M{N := LENGTH G; N := LENGTH J} || || LENGTH of arrays of records
$A{N := LENGTH @N} || 11 || LENGTH of an INT
$A{N := LENGTH (@N)} || 11 || LENGTH of an INT in brackets
$A{N := LENGTH @1} || 11 || LENGTH of an integer
$A{N := LENGTH @LENGTH A} || 11 || LENGTH of a LENGTH
$A{N := LENGTH @A(1)} || 11 || LENGTH of an element
$M{N := LENGTH @E} || 11 || LENGTH of a record
$M{N := LENGTH @H} || 11 || LENGTH of a reference to a record
$R{N := LENGTH @R} || 11 || LENGTH of a reference to an INT
$F{N := LENGTH @FI()} || 11 || LENGTH of a call that gives an INT
$A{N := LENGTH A + 1; N := - LENGTH A} || || LENGTH in an expression
$A{N := LENGTH @- 1} || 11 || LENGTH of a negative
DATA D; ARRAY (2) REF ARRAY BYTE A := ("a", "b"); INT N ENDDATA; {N := LENGTH A(1); N := A(1)(1); N := LENGTH A} || || an array of strings
DATA D; ARRAY (2) REF ARRAY BYTE A := ("a", "b"); INT N ENDDATA; {N := @A(1)(1)(1)} || 11 || one subscript too many
DATA D; ARRAY (2) REF INT A := (N, N); INT N ENDDATA; {N := A(1); VAL A(1) := 2; A(2) := N} || || an array of references
DATA D; ARRAY (2) REF INT A := (N, N); INT N ENDDATA; {A(1) := @2} || 11 || an element that is a reference wants an address
$A{N := A(1) LAND 3 LOR S(1) NEV W(2)} || || bit operators
$A{N := 1 LOR @A} || 11 || the right operand of a bit operator
$A{N := @"A" NEV 1} || 11 || a string under a bit operator
$M{N := N LAND @E.L} || 11 || a reference to a record under a bit operator
$F{N := @FA() LOR 1} || 11 || a call that gives a reference to an array
$F{N := 1 LOR @Z()} || 11 || a call without a result
$N{B := BYTE X LAND B NEV 3 LOR 'A'} || || three bit operators on BYTEs give a BYTE
$N{B := @B LAND 1 + 0} || 11 || the sum is the outermost
$N{N := X + B LAND 7; N := (X + B) LAND 7} || || a sum and a bit operator
'''
# ------------------------------------------------------------------ conditions
C += r'''
$R{IF N = 1 AND B # R OR Q = B AND N # 256 THEN END} || || equality of plain values
$A{IF @A = 1 THEN END} || 11 || an array is not compared by =
$A{IF 1 = @"A" THEN END} || 11 || a string is not compared by =
$A{IF @W # W THEN END} || 11 || references to arrays are not compared by #
$A{IF @A = U THEN END} || 11 || the left operand before the right
$M{IF @E = E THEN END} || 11 || records are not compared by =
$M{IF N # @H THEN END} || 11 || a reference to a record is not compared by #
$R{IF N < 1 AND B <= R OR Q > B AND N >= 256 THEN END} || || order of plain values
$A{IF @A < 1 THEN END} || 11 || an array under <
$A{IF 1 >= @T THEN END} || 11 || a reference to an array under >=
$A{WHILE N <= @"A" DO REP} || 11 || a string under <=
$A{WHILE N > LENGTH A DO REP} || || LENGTH in a condition
$R{IF R :=: N OR N :#: R AND R :=: R OR N :=: N OR Q :=: B THEN END} || || places and references of one mode
$R{IF @R :=: B THEN END} || 11 || references of two modes
$R{IF @R :#: Q THEN END} || 11 || references to an INT and to a BYTE
$R{IF (R) :=: (N) THEN END} || || brackets change nothing
$R{IF @(R) :=: B THEN END} || 11 || the comparison begins with its bracket
$R{IF (@1) :=: B THEN END} || 11 || an operand in brackets that is no reference
$R{IF @1 :=: N THEN END} || 11 || an integer is no reference
$R{IF R :=: @1 THEN END} || 11 || an integer on the right is no reference
$R{IF R :=: @N + 1 THEN END} || 11 || a sum is no reference
$R{INT I; IF @I :=: R THEN END} || 11 || a local of mode INT has no address
$R{INT I; IF R :=: @I THEN END} || 11 || a local of mode INT on the right
$R{REF INT I := N; IF I :=: R THEN END} || || a local that is a reference
$R{IF @1 :=: U THEN END} || 11 || the left operand before the unknown name
$R{IF R :=: @U THEN END} || 10 || an unknown name on the right
$R{IF @B :=: N THEN IF U = 1 THEN END END} || 11 || two places of different modes, before the sequence
$A{IF A :=: T OR S :=: W OR W :=: "abc" OR "a" :#: "a" OR T :=: T THEN END} || || arrays, strings and references to arrays
$A{IF @A :=: S THEN END} || 11 || arrays of different elements
$A{IF @T :=: "a" THEN END} || 11 || an array of INT and a string
$A{IF @A(1) :=: A THEN END} || 11 || an element and its array
$A{IF A(1) :=: A(2) AND S(1) :#: W(1) THEN END} || || elements have addresses
$M{IF E :=: H OR H :=: E.L OR G(1) :=: E OR J(1) :#: H OR G :=: J THEN END} || || records and references to them
$M{IF @E :=: F THEN END} || 11 || records of different modes
$M{IF @H :#: I THEN END} || 11 || references to records of different modes
$M{IF @G :=: E THEN END} || 11 || an array of records and a record
$M{IF E.V :=: F.V THEN END} || || components have addresses
$F{IF FR() :=: N AND FA() :=: A THEN END} || || a call's result that is a reference
$F{IF @FI() :=: N THEN END} || 11 || a call's result that is an INT
$F{IF @Z() = 1 THEN END} || 11 || a procedure without a result in a condition
$N{IF N = 1 THEN ELSEIF @U = 1 THEN END} || 10 || an unknown name behind ELSEIF
$N{IF N = 1 THEN ELSE @U := 1 END} || 10 || an unknown name behind ELSE
$N{WHILE @U = 1 DO REP} || 10 || an unknown name behind WHILE
$N{WHILE N = 1 DO @U() REP} || 10 || an unknown procedure in a loop
$N{IF N = 1 OR X = @U THEN END} || 10 || an unknown name behind OR
$N{IF NOT N = 1 THEN END} || || NOT belongs to the operand
'''
# ------------------------------------------------------------------ statements
C += r'''
$R{@N := R := 2} || 11 || destinations of different modes
$R{@N := B := 1} || 11 || an INT and a BYTE are different modes
$R{N := B := @U} || 10 || the expression comes before the different modes
$R{N := B := @N(1)} || 11 || the parts of the expression come before the different modes
$A{@N := S(1) := A} || 11 || with different modes the expression is brought to nothing
$R{N := VAL R := 2; VAL R := N := B; VAL Q := B := 1} || || VAL gives the mode referred to
$R{@VAL R := B := 1} || 11 || the misfit begins at VAL
$R{@N := VAL Q := 1} || 11 || an INT, and the BYTE referred to
$R{VAL R := R; VAL R := Q; VAL Q := Q; VAL R := 256} || || values behind a VAL
$R{VAL Q := @N} || 11 || an INT for the BYTE referred to
$R{VAL Q := @R} || 11 || an INT referred to for a BYTE
$R{VAL @N := 1} || 11 || VAL of an INT
$R{VAL @B := 1} || 11 || VAL of a BYTE
$A{VAL @A := 1} || 11 || VAL of an array
$A{VAL @T := 1} || 11 || VAL of a reference to an array
$A{VAL @A(1) := 1} || 11 || VAL of an element of mode INT
$M{VAL @H := 1} || 11 || VAL of a reference to a record
$M{VAL @E := 1} || 11 || VAL of a record
$R{VAL @U := 1} || 10 || VAL of an unknown name
$R{REF INT I := N; VAL I := 1} || || VAL of a local
PROC P (REF BYTE A); VAL A := 255 ENDPROC || || VAL of a parameter
PROC P (REF BYTE A); VAL A := @256 ENDPROC || 11 || an INT behind VAL of a parameter
MODE M (REF INT A); DATA D; INT N; M E := (N) ENDDATA; {VAL E.A := 1; E.A := N} || || VAL of a component
MODE M (REF INT A); DATA D; INT N; M E := (N) ENDDATA; {E.A := @1} || 11 || a component that is a reference
$A{@A := A} || 11 || an array is no destination
$A{@A := T} || 11 || an array is no destination for a reference
$M{@E := E} || 11 || a record is no destination
$M{@G(1) := E} || 11 || an element that is a record is no destination
$M{@G := G} || 11 || an array of records is no destination
$A{N := @A := 1} || 11 || an array as a second destination
$A{N := A(1) := T(2) := 3} || || three destinations of one mode
$A{@N := A(1) := S(2) := 3} || 11 || the third destination has another mode
$A{A(1) := S(1); T(1) := W(1); W(1) := S(2)} || || elements as destinations
$A{@N(1) := 2} || 11 || a subscript behind an INT as a destination
$M{E.V := 1; H.V := 2; G(1).V := 3; J(1).L := E; E.L.V := 4} || || components as destinations
$M{E.@W := 1} || 10 || a component that the record mode lacks
$M{G(1).@W := 1} || 10 || a component that an element lacks
$M{N := H.@D} || 10 || a name of the module behind a point
$M{N := E.L.@W} || 10 || a component lacking at the second point
$M{N := @E.V.V} || 11 || a component of mode INT has no components
$M{N := @E.V(1)} || 11 || a component of mode INT has no elements
$M{N := @E(1)} || 11 || a record has no elements
$M{N := @H(1)} || 11 || a reference to a record has no elements
$M{N := @G.V} || 11 || an array of records has no components
$M{N := @J.V} || 11 || a reference to an array has no components
$R{N := @R.V} || 11 || a reference to an INT has no components
$R{N := @R(1)} || 11 || a reference to an INT has no elements
$A{N := T(1) + W(2)} || || subscripts through references
{RETURN} || || RETURN from a procedure without a result
$N{@RETURN (1)} || 11 || RETURN with an expression in a procedure without a result
$N{RETURN (@U)} || 10 || the expression comes first
$A{@RETURN (A)} || 11 || the expression is brought to nothing
$A{RETURN (@A + 1)} || 11 || the parts of the expression come first
$F{RETURN (@Z())} || 11 || a procedure without a result behind RETURN
PROC P () INT; @RETURN ENDPROC || 11 || RETURN alone in a procedure with a result
PROC P () INT; RETURN (1) ENDPROC || || a BYTE widens to the result
PROC P () BYTE; RETURN (@256) ENDPROC || 11 || an INT for a BYTE result
PROC P () BYTE; RETURN ((255)) ENDPROC || || a BYTE in two brackets
PROC P () INT; ENDPROC || || that a result is returned is not judged
PROC P () REF INT; RETURN (@1) ENDPROC || 11 || an integer for a reference
PROC P () INT; BLOCK TO 2 DO RETURN (1) REP ENDBLOCK; @RETURN ENDPROC || 11 || the second RETURN
PROC P () INT; BLOCK RETURN (@"A") ENDBLOCK ENDPROC || 11 || RETURN inside a block
$R{TO 3 DO REP; TO N DO REP; TO B DO REP; TO R DO REP; TO Q + 1 DO REP} || || counts that become INT
$A{TO @A DO REP} || 11 || an array as a count
$A{TO @"A" DO REP} || 11 || a string as a count
$A{TO LENGTH W DO N := N + 1 REP} || || LENGTH as a count
$N{TO @U DO REP} || 10 || an unknown count
$N{TO 3 DO @U := 1 REP} || 10 || an unknown name in a TO body
$N{BLOCK ENDBLOCK; ; ; N := 1; } || || empty statements
'''
# ------------------------------------------------------------------ locals with values
C += r'''
$R{INT I := B, J := R, K := Q; BYTE L := Q, O := 'A'; } || || initial values brought to their modes
$R{BYTE I := @N; } || 11 || an INT for a BYTE
$R{BYTE I := J := @256; } || 11 || an INT for two BYTEs
$A{INT I := @A; } || 11 || an array for an INT
$A{REF ARRAY BYTE I := "abc", J := S, K := W, L := I; } || || references to arrays
$A{REF ARRAY BYTE I := @A; } || 11 || an array of INT
$M{REF M I2 := E, J2 := G(1), K2 := H, L2 := E.L; REF ARRAY M O := G; } || || references to records
$M{REF M X := @F; } || 11 || a record of another mode
$N{INT I := @U; } || 10 || an unknown name
$F{INT I := H(1), J := @Z(); } || 11 || a procedure without a result
$F{INT I := H(1), J := FI() + I; } || || calls in initial values
'''
# ------------------------------------------------------------------ initial values in a data brick
C += r'''
DATA D; INT A := 1, B := -1, C := +1, E := 256, F := -32767, G := 'A', H := HEX 7FFF ENDDATA || || integers for an INT
DATA D; BYTE A := 0, B := 255, C := 'A', E := BIN 11 ENDDATA || || integers for a BYTE
DATA D; BYTE A := @256 ENDDATA || 11 || above the range of BYTE
DATA D; BYTE A := @-1 ENDDATA || 11 || a sign for a BYTE
DATA D; BYTE A := @+1 ENDDATA || 11 || a plus sign for a BYTE
DATA D; BYTE A := @- 0 ENDDATA || 11 || a signed zero for a BYTE
DATA D; INT A := @"A" ENDDATA || 11 || a string for an INT
DATA D; INT A := @() ENDDATA || 11 || an empty list for an INT
DATA D; INT A := @(1) ENDDATA || 11 || a list for an INT
DATA D; INT A := (@U) ENDDATA || 10 || the parts of an unwanted list are judged first
DATA D; INT A := @(D1, "S", (1, -2)) ENDDATA; DATA E; ARRAY (2) INT D1 ENDDATA || 11 || the parts of an unwanted list are brought to nothing
DATA D; INT A := (@D, U) ENDDATA || 10 || a brick in an unwanted list
DATA D; INT A := ((1, @P)) ENDDATA; PROC P (); ENDPROC || 10 || a procedure in a list inside an unwanted list
DATA D; INT A := @(1(2)) ENDDATA || 11 || a repetition in an unwanted list is no misfit of its own
DATA D; INT A, B := @A ENDDATA || 11 || a name for an INT
DATA D; BYTE A, B := @A ENDDATA || 11 || a name for a BYTE
DATA D; INT B := @U ENDDATA || 10 || an unknown name for an INT
DATA D; INT B := @P ENDDATA; PROC P (); ENDPROC || 10 || a procedure for an INT
DATA D; INT A, B := @B ENDDATA || 11 || a name for itself
DATA D; REF INT R := N; INT N ENDDATA || || a reference to an INT
DATA D; REF BYTE R := N; BYTE N ENDDATA || || a reference to a BYTE
DATA D; REF INT R := @N; BYTE N ENDDATA || 11 || a place of another mode
DATA D; REF BYTE R := @N; INT N ENDDATA || 11 || a place of mode INT for a reference to a BYTE
DATA D; REF INT R := N, Q := @R; INT N ENDDATA || 11 || the contents of a reference are never taken
DATA D; REF INT R := @R ENDDATA || 11 || a reference to itself
DATA D; REF INT R := @1 ENDDATA || 11 || an integer for a reference
DATA D; REF INT R := @-1 ENDDATA || 11 || a signed integer for a reference
DATA D; REF INT R := @"A" ENDDATA || 11 || a string for a reference to an INT
DATA D; REF BYTE R := @"A" ENDDATA || 11 || a string for a reference to a BYTE
DATA D; REF INT R := @A; ARRAY (1) INT A ENDDATA || 11 || an array for a reference to an INT
DATA D; REF INT R := @(N); INT N ENDDATA || 11 || a name in a list for a reference
DATA D; REF INT R := @U ENDDATA || 10 || an unknown name for a reference
DATA D; REF INT R := @D ENDDATA || 10 || a brick for a reference
DATA D; REF INT R := @P ENDDATA; PROC P (); ENDPROC || 10 || a procedure for a reference
DATA D; REF INT R := @M ENDDATA; MODE M (INT A) || 10 || a record mode for a reference
DATA D; REF INT R := @A ENDDATA; MODE M (INT A) || 10 || a component for a reference
DATA D; REF INT R := @I ENDDATA; PROC P (INT I); ENDPROC || 10 || a parameter is not known in a data brick
DATA D; REF INT R := Q := S := N; INT N ENDDATA || || one value for three references
DATA D; REF ARRAY INT R := A; ARRAY (3) INT A ENDDATA || || a reference to an array
DATA D; REF ARRAY INT R := @A; ARRAY (3) BYTE A ENDDATA || 11 || an array of another mode
DATA D; REF ARRAY INT R := @N; INT N ENDDATA || 11 || a simple variable for a reference to an array
DATA D; REF ARRAY BYTE R := "abc", Q := "" ENDDATA || || strings for references to arrays of BYTE
DATA D; REF ARRAY INT R := @"abc" ENDDATA || 11 || a string for a reference to an array of INT
DATA D; REF ARRAY BYTE R := @("abc") ENDDATA || 11 || a string in a list for a reference
DATA D; REF ARRAY BYTE R := @(1, 2) ENDDATA || 11 || a list for a reference to an array
DATA D; REF ARRAY REF INT R := A; ARRAY (2) REF INT A := (N, N); INT N ENDDATA || || a reference to an array of references
DATA D; REF ARRAY REF INT R := @A; ARRAY (2) INT A ENDDATA || 11 || an array of INT for it
DATA D; REF ARRAY REF ARRAY BYTE R := A; ARRAY (2) REF ARRAY () BYTE A := ("a"(2)) ENDDATA || || empty brackets make no difference to a mode
MODE M (INT A); DATA D; REF M R := E; M E ENDDATA || || a reference to a record
MODE M (INT A); MODE K (INT A); DATA D; REF M R := @E; K E ENDDATA || 11 || a record of another mode with the same components
MODE M (INT A); DATA D; REF M R := @E; ARRAY (1) M E ENDDATA || 11 || an array of records for a reference to a record
MODE M (INT A); DATA D; REF ARRAY M R := E; ARRAY (1) M E ENDDATA || || a reference to an array of records
MODE M (INT A); DATA D; REF M R := @(1) ENDDATA || 11 || a list for a reference to a record
DATA D; ARRAY (3) INT A := (1, -2, +3), B := (0(3)), C := (1(0), 2, 3(2)), E ENDDATA || || lists for arrays
DATA D; ARRAY (3) INT A := @(1, 2) ENDDATA || 11 || too few values
DATA D; ARRAY (3) INT A := @(1, 2, 3, 4) ENDDATA || 11 || too many values
DATA D; ARRAY (3) INT A := @(1(4)) ENDDATA || 11 || repeated too often
DATA D; ARRAY (3) INT A := @(1(2)) ENDDATA || 11 || repeated too seldom
DATA D; ARRAY (3) INT A := @() ENDDATA || 11 || an empty list for three elements
DATA D; ARRAY (3) INT A := @(1(32767), 2(32767), 3(5)) ENDDATA || 11 || a number of values far beyond
DATA D; ARRAY (3) BYTE A := (1, @256, U) ENDDATA || 11 || a value out of range, before the next
DATA D; ARRAY (3) BYTE A := (1, @-2) ENDDATA || 11 || a signed value, before the wrong number
DATA D; ARRAY (3) BYTE A := (@256(3)) ENDDATA || 11 || a repeated value is judged
DATA D; ARRAY (3) BYTE A := (1(3), @256(0)) ENDDATA || 11 || a value repeated 0 times is judged
DATA D; ARRAY (3) INT A := (1, @(2), 3) ENDDATA || 11 || a list for an element of mode INT
DATA D; ARRAY (3) INT A := (1, @"A", 3) ENDDATA || 11 || a string for an element of mode INT
DATA D; ARRAY (3) INT A := (1, @N, 3); INT N ENDDATA || 11 || a name for an element of mode INT
DATA D; ARRAY (3) INT A := @1 ENDDATA || 11 || an integer for an array
DATA D; ARRAY (3) INT A := @-1 ENDDATA || 11 || a signed integer for an array
DATA D; ARRAY (3) INT A := @B, B ENDDATA || 11 || a name for an array
DATA D; ARRAY (3) INT A := @U ENDDATA || 10 || an unknown name for an array
DATA D; ARRAY (3) INT A := @"abc" ENDDATA || 11 || a string for an array of INT
DATA D; ARRAY (3) BYTE A := "abc", B := (1, 'A', 255), C := E := "xyz" ENDDATA || || strings and lists for arrays of BYTE
DATA D; ARRAY (3) BYTE A := @"ab" ENDDATA || 11 || a string that is too short
DATA D; ARRAY (3) BYTE A := @"abcd" ENDDATA || 11 || a string that is too long
DATA D; ARRAY (3) BYTE A := (@"abc") ENDDATA || 11 || a string in a list for an array of BYTE
DATA D; ARRAY (3) BYTE A := B := @"ab" ENDDATA || 11 || a string too short for two arrays
DATA D; ARRAY (0) BYTE A := "", B := (), C; ARRAY (0) INT E := (), F := (5(0)), G ENDDATA || || arrays of length 0
DATA D; ARRAY (0) INT A := @"" ENDDATA || 11 || an empty string for an empty array of INT
DATA D; ARRAY (0) BYTE A := @"a" ENDDATA || 11 || a string for an empty array
DATA D; ARRAY (0) INT A := @(1) ENDDATA || 11 || a value for an empty array
DATA D; ARRAY (2) REF INT A := (N, N), B := (N(2)); INT N ENDDATA || || an array of references
DATA D; ARRAY (2) REF INT A := (N, @B); INT N; BYTE B ENDDATA || 11 || a place of another mode in an array of references
DATA D; ARRAY (2) REF INT A := (N, @1); INT N ENDDATA || 11 || an integer in an array of references
DATA D; ARRAY (2) REF ARRAY BYTE A := ("open", "shut"), B := ("x"(2)) ENDDATA || || an array of strings
DATA D; ARRAY (2) REF ARRAY BYTE A := ("open", @1) ENDDATA || 11 || an integer in an array of strings
DATA D; ARRAY (2) REF ARRAY BYTE A := ("open", S); ARRAY (4) BYTE S ENDDATA || || a string and an array
MODE M (INT A, BYTE B); DATA D; M E := (1, 2), F := G := (-1, 255), H ENDDATA || || lists for records
MODE M (INT A, BYTE B); DATA D; M E := @(1) ENDDATA || 11 || too few values for a record
MODE M (INT A, BYTE B); DATA D; M E := @(1, 2, 3) ENDDATA || 11 || too many values for a record
MODE M (INT A, BYTE B); DATA D; M E := @() ENDDATA || 11 || an empty list for a record
MODE M (INT A, BYTE B); DATA D; M E := (1, @-2) ENDDATA || 11 || a signed value for a BYTE component
MODE M (INT A, BYTE B); DATA D; M E := (1, 2, @U) ENDDATA || 10 || a value too many is judged all the same
MODE M (INT A, BYTE B); DATA D; M E := @(1, 2, F, "s", (1)), F ENDDATA || 11 || values too many are brought to nothing
MODE M (INT A, BYTE B); DATA D; M E := (@"A", 2) ENDDATA || 11 || a string for an INT component
MODE M (INT A, BYTE B); DATA D; M E := (@1(1), 2) ENDDATA || 11 || a repetition in a record's list
MODE M (INT A, BYTE B); DATA D; M E := (1, @2(0)) ENDDATA || 11 || a repetition of 0 in a record's list
MODE M (INT A, BYTE B); DATA D; M E := (@1(2)) ENDDATA || 11 || a repetition in a record's list, before the wrong number
MODE M (INT A, BYTE B); DATA D; M E := (1, 2, @3(1)) ENDDATA || 11 || a repetition of a value too many in a record's list
MODE M (INT A, BYTE B); DATA D; M E := (1, @U(1)) ENDDATA || 10 || the repeated value itself comes first
MODE M (INT A, BYTE B); DATA D; M E := (@(U1, 2)(1)), U1 ENDDATA || 11 || a repeated list in a record's list
MODE M (INT A, BYTE B); DATA D; M E := @1 ENDDATA || 11 || an integer for a record
MODE M (INT A, BYTE B); DATA D; M E := @"ab" ENDDATA || 11 || a string for a record
MODE M (INT A, BYTE B); DATA D; M E := @F, F ENDDATA || 11 || a name for a record
MODE M (INT A); DATA D; M E := @3 ENDDATA || 11 || a record of one component wants a list
MODE M (INT A); DATA D; M E := (3) ENDDATA || || a list of one value
MODE M (INT A, REF M B); DATA D; M E := (1, E), F := (2, E) ENDDATA || || a record that refers to itself
MODE M (INT A, REF M B); DATA D; M E := (1, @R); REF M R := E ENDDATA || 11 || a reference is no record
MODE M (REF ARRAY BYTE A); DATA D; M E := ("name") ENDDATA || || a string for a component
MODE M (REF ARRAY BYTE A); DATA D; M E := @"name" ENDDATA || 11 || a string for a record
MODE M (INT A, BYTE B); DATA D; ARRAY (2) M E := ((1, 2), (3, 4)), F := ((1, 2)(2)), G := H := ((0, 0)(2)) ENDDATA || || lists of lists for arrays of records
MODE M (INT A, BYTE B); DATA D; ARRAY (2) M E := @((1, 2)) ENDDATA || 11 || too few records
MODE M (INT A, BYTE B); DATA D; ARRAY (2) M E := ((1, 2), @(3)) ENDDATA || 11 || too few values in the second record
MODE M (INT A, BYTE B); DATA D; ARRAY (2) M E := (@1, 2) ENDDATA || 11 || integers for records
MODE M (INT A, BYTE B); DATA D; ARRAY (2) M E := ((1, @256)(2)) ENDDATA || 11 || a value out of range in a repeated record
MODE M (INT A, BYTE B); DATA D; ARRAY (2) M E := ((1, 2)(2), (3, @300)(0)) ENDDATA || 11 || a value out of range in a record repeated 0 times
MODE M (INT A, BYTE B); DATA D; ARRAY (2) M E := ((1, 2)(2), @(3)(0)) ENDDATA || 11 || too few values in a record repeated 0 times
MODE M (INT A, BYTE B); DATA D; ARRAY (2) M E := ((1, 2), @F), F ENDDATA || 11 || a name for a record in a list
MODE M (INT A, BYTE B); DATA D; ARRAY (0) M E := (), F := ((1, 2)(0)), G ENDDATA || || empty arrays of records
DATA D; INT A := B := -3, C; BYTE E := F := 3 ENDDATA || || several names for one value
DATA D; INT A := B := @"x" ENDDATA || 11 || one value that fits neither name
PROC P (); N := @S ENDPROC; DATA D; ARRAY (2) INT S := (1); INT N ENDDATA || 11 || the earlier misfit decides, in a procedure before the data
'''
# ------------------------------------------------------------------ references without a value
C += r'''
DATA D; REF INT @R ENDDATA || 12 || a reference without a value
DATA D; REF ARRAY BYTE @R ENDDATA || 12 || a reference to an array without a value
DATA D; REF INT R := N, @Q; INT N ENDDATA || 12 || the second reference has none
DATA D; REF INT @Q, R := U ENDDATA || 12 || the missing value comes before the unknown name
DATA D; REF INT R := @U, Q ENDDATA || 10 || the unknown name comes before the missing value
DATA D; REF INT R := @1, Q ENDDATA || 11 || the misfit comes before the missing value
MODE M (INT A, REF INT B); DATA D; M @E ENDDATA || 12 || a record with a reference
DATA D; M @E ENDDATA; MODE M (INT A, REF U B) || 12 || a record mode declared later, before its unknown mode
MODE M (INT A, BYTE B); DATA D; M E ENDDATA || || a record without references
MODE M (INT A, REF INT B); DATA D; ARRAY (1) M @E ENDDATA || 12 || an array of records with references
MODE M (INT A, REF INT B); DATA D; ARRAY (0) M E ENDDATA || || an empty array of records with references
DATA D; ARRAY (2) REF INT @A ENDDATA || 12 || an array of references
DATA D; ARRAY (0) REF INT A; ARRAY (0) REF ARRAY BYTE B ENDDATA || || empty arrays of references
DATA D; ARRAY (2) INT A; ARRAY (2) BYTE B; INT C; BYTE E ENDDATA || || nothing to set
{REF INT @A; } || 12 || a local reference without a value
$R{REF INT A := N, @C; } || 12 || a second local reference without a value
$R{REF INT @A, C := U; } || 12 || before an unknown name
{BLOCK REF ARRAY BYTE @A; ENDBLOCK} || 12 || in a block
{TO 3 DO REF BYTE @A; REP} || 12 || in a TO body
MODE M (INT A); {REF M @A; } || 12 || a local reference to a record
PROC P (REF INT A, REF ARRAY BYTE B); ENDPROC || || parameters need no value
PROC P (REF INT A); REF INT B := A; ENDPROC || || a local set from a parameter
MODE M (REF INT A, REF M B) || || components need no value
DATA D; REF INT @R; INT N := "A" ENDDATA || 12 || the missing value before a later misfit
DATA D; INT N := @"A"; REF INT R ENDDATA || 11 || the misfit before a later missing value
{REF INT @R; R := U} || 12 || the missing value before a later unknown name
$N{N := @U; BLOCK REF INT R; ENDBLOCK} || 10 || the unknown name before a later missing value
PROC P (); REF INT @R; ENDPROC; EXT PROC () F || 12 || the missing value before a later description
EXT PROC () @F; PROC P (); REF INT R; ENDPROC || 10 || the description before a later missing value
EXT DATA @E; REF INT R ENDDATA || 10 || described references
'''
C += r'''
PROC P ();\n  N := "abc@\nENDPROC || 3 || a newline inside a string
PROC P ();\n  N := @"abc ENDPROC || 4 || a string that is not closed
% a comment@\n% || 3 || a newline inside a comment
;;; @%never closed || 4 || a comment that is not closed
PROC P (); @99999 ! || 5 || the integer comes before the bad byte
PROC P (); @! 99999 || 3 || the bad byte comes before the integer
'''
# ------------------------------------------------------------------ limits and order of stages, put together
L = []
def add(text, number, reason): L.append((text, number, reason))
add(' ' * 32768, 0, 'the longest text')
add(' ' * 32768 + '@ ', 2, 'one byte too long')
add('!' + ' ' * 32767 + '@ ', 2, 'the length is looked at before any byte')
add('\n' * 32767 + ' ' + '@!', 2, 'one byte too long, on many lines')
add(';' * 4096, 0, 'the most items')
add(';' * 4096 + '@;', 6, 'one item too many')
add(';\n' * 4096 + '@;', 6, 'one item too many, one on each line')
add('A' + ';' * 4095 + '@A', 6, 'the number of items is looked at before the syntax')
add('%a%;' * 4096, 0, 'comments do not count as items')
add(';' * 4097 + '@!', 3, 'all of the text is cut before the items are counted')
add('PROC P (); ' + 'BLOCK ' * 32 + 'INT A; A := 1 ' + 'ENDBLOCK ' * 32 + 'ENDPROC', 0, 'the greatest depth by blocks')
add('PROC P (); X := 1; ' + 'BLOCK ' * 32 + '@BLOCK ' + 'ENDBLOCK ' * 33 + 'ENDPROC', 8, 'one block too deep, before an unknown name')
add('DATA D; INT A, A; BYTE B := ' + '(' * 32 + '@(' + '1' + ')' * 33 + ' ENDDATA', 8, 'one list too deep, before a double declaration')
add('DATA D; INT A := @' + '(' * 32 + '1' + ')' * 32 + ' ENDDATA', 11, 'a list of the greatest depth for an INT')
add('DATA D; INT N ENDDATA; PROC P (); N := ' + '(' * 32 + 'N' + ')' * 32 + ' ENDPROC', 0, 'the greatest depth by brackets')
add('DATA D; BYTE B; INT N ENDDATA; PROC P (); B := ' + '(' * 32 + '@N' + ')' * 32 + ' ENDPROC', 11, 'a misfit inside the greatest depth of brackets')
add('DATA D; ARRAY (3) INT A ENDDATA; PROC P (); ' + 'A(' * 32 + '1' + ')' * 32 + ' := 1 ENDPROC', 0, 'the greatest depth by subscripts')
add('PROC F (INT A) INT; ' + 'RETURN (' + 'F(' * 31 + '1' + ')' * 31 + ') ENDPROC', 0, 'the greatest depth by calls')
# 13
add('DATA D; ARRAY (4096) INT A ENDDATA', 0, 'the most places')
add('DATA D; ARRAY (4097) INT @A ENDDATA', 13, 'one place too many in one array')
add('DATA D; ARRAY (4096) BYTE A; INT @B, C ENDDATA', 13, 'one place too many by a simple variable')
add('DATA D; ARRAY (4095) BYTE A; INT B ENDDATA', 0, 'an array and a simple variable, just enough')
add('DATA D; ARRAY (2048) INT A, B ENDDATA', 0, 'two arrays, just enough')
add('DATA D; ARRAY (2048) INT A, B, C, @E ENDDATA'.replace('C, @E', '@C, E'), 13, 'the third array passes')
add('DATA D; ARRAY (1366) INT A := B := @C := (0(1366)) ENDDATA', 13, 'several names for one value each count')
add('DATA D; ARRAY (32767) INT @A; ARRAY (32767) INT B ENDDATA', 13, 'the longest array')
add('MODE M (INT A, B, C); DATA D; ARRAY (1365) M E; INT F ENDDATA', 0, 'an array of records with three components, and one more place')
add('MODE M (INT A, B, C); DATA D; ARRAY (1365) M E; INT F, @G ENDDATA', 13, 'an array of records, and two more places')
add('MODE M (INT A, B, C); DATA D; ARRAY (1366) M @E ENDDATA', 13, 'an array of records that passes by itself')
add('MODE M (INT A, B, C); DATA D; INT F; M G; ARRAY (1364) M E ENDDATA', 0, 'a record counts its components')
add('MODE M (INT A, B, C); DATA D; INT F, G; M H; ARRAY (1364) M @E ENDDATA', 13, 'a record counts its components, one too many')
add('MODE M (INT A, B, C); DATA D; ARRAY (4094) INT E; M @F ENDDATA', 13, 'a record that passes')
add('DATA D; ARRAY (32767) M @E ENDDATA; MODE M (INT A, B, C, F, G, H, I, J, K, L)', 13, 'the record mode may come later')
add('MODE M (INT A, B); DATA D; ARRAY (2048) M E; ARRAY (0) M F; ARRAY (0) INT G ENDDATA', 0, 'empty arrays have no places')
add('DATA D; ARRAY (4090) INT A; ARRAY (3) BYTE S := "abc" ENDDATA', 0, 'a string as an initial value counts beside the array it fills')
add('DATA D; ARRAY (4091) INT A; ARRAY (3) BYTE S := @"abc" ENDDATA', 13, 'the string passes')
add('DATA D; ARRAY (4094) INT A; ARRAY (3) BYTE @S := "abc" ENDDATA', 13, 'the array passes before its string')
add('DATA D; ARRAY (4092) INT A; REF ARRAY BYTE R := "abc" ENDDATA', 0, 'a reference is one place and its string three')
add('DATA D; ARRAY (4093) INT A; REF ARRAY BYTE R := @"abc" ENDDATA', 13, 'the string of a reference passes')
add('DATA D; ARRAY (4096) INT A; REF ARRAY BYTE @R := "" ENDDATA', 13, 'a reference is a place itself')
add('DATA D; ARRAY (4095) INT A; REF ARRAY BYTE R := "" ENDDATA', 0, 'an empty string has no places')
add('DATA D; ARRAY (4091) INT A; REF ARRAY BYTE R := Q := "abc" ENDDATA', 0, 'two references and one string')
add('DATA D; ARRAY (4090) INT A; ARRAY (2) REF ARRAY BYTE R := ("ab"(2)), Q := ("a"(2)) ENDDATA', 13, 'x')
add('DATA D; ARRAY (4092) INT A; ARRAY (2) REF ARRAY BYTE R := ("ab"(2)) ENDDATA', 0, 'a repeated string counts once')
add('DATA D; ARRAY (4093) INT A; ARRAY (2) REF ARRAY BYTE R := (@"ab"(2)) ENDDATA', 13, 'a repeated string that passes')
add('DATA D; ARRAY (4094) BYTE A ENDDATA;\nPROC P (); INT I := LENGTH "ab"; ENDPROC', 0, 'a string in a procedure counts')
add('DATA D; ARRAY (4094) BYTE A ENDDATA;\nPROC P (); INT I := LENGTH "ab"; I := LENGTH "" + LENGTH @"c" ENDPROC', 13, 'the third string passes')
add('PROC P (); INT I := LENGTH "ab"; ENDPROC;\nDATA D; ARRAY (4094) BYTE A; INT @B ENDDATA', 13, 'the order of the text counts, strings before data')
add('DATA D; ARRAY (4094) BYTE A ENDDATA;\nPROC P (); INT I := LENGTH "ab", J := K := L; %"abc"% ENDPROC', 10, 'x')
add('DATA D; ARRAY (4094) BYTE A ENDDATA;\nPROC P (); INT I := LENGTH "ab", J, K; %"abc"% ENDPROC', 0, 'locals and strings in comments do not count')
add('DATA D; ARRAY (4094) BYTE A; ENDDATA;\nPROC P (INT I, J, K); IF "a" :=: "b" THEN END ENDPROC', 0, 'two strings of one byte, and parameters')
add('DATA D; ARRAY (4095) BYTE A; ENDDATA;\nPROC P (INT I, J, K); IF "a" :=: @"a" THEN END ENDPROC', 13, 'the same string written twice counts twice')
add('DATA D; ARRAY (4090) INT A; BYTE B, C; INT E, F; REF INT G := E, H := F ENDDATA', 0, 'simple variables of all kinds')
add('DATA D; ARRAY (4090) INT A; BYTE B, C; INT E, F; REF INT G := E, H := F; BYTE @I ENDDATA', 13, 'simple variables of all kinds, one too many')
add('DATA D; ARRAY (4096) INT A ENDDATA; DATA @E; ENDDATA; DATA F; INT B ENDDATA'.replace('@E', 'E').replace('INT B', 'INT @B'), 13, 'the sum goes over all bricks')
add('DATA D; ARRAY (4096) INT A ENDDATA; MODE M (INT A, B, C); PROC P (); ENDPROC', 0, 'record modes and bricks have no places')
# order of 10, 11, 12 and 13
add('DATA D; ARRAY (5000) INT A ENDDATA; PROC P (); @U := 1 ENDPROC', 10, 'an unknown name decides before the places')
add('DATA D; ARRAY (5000) INT A; BYTE B := @256 ENDDATA', 11, 'a misfit decides before the places')
add('DATA D; ARRAY (5000) INT A; REF INT @R ENDDATA', 12, 'a missing value decides before the places')
add('DATA D; ARRAY (5000) BYTE A := @"abc" ENDDATA', 11, 'a wrong number of bytes decides before the places')
# 14
def names(a, n, first=1): return ', '.join('%s%d' % (a, i) for i in range(first, first + n))
def pars(n): return 'INT ' + names('A', n)
add('PROC P (%s); ENDPROC' % pars(8), 0, 'eight parameters')
add('PROC P (%s, @A9); ENDPROC' % pars(8), 14, 'nine parameters')
add('PROC P (%s, @A9, A10); ENDPROC' % pars(8), 14, 'ten parameters: the ninth is named')
add('PROC P (INT A, B, BYTE C, E, REF INT F, G, REF ARRAY BYTE H, I, BYTE @J); ENDPROC', 14, 'nine parameters in several groups')
add('PROC P (INT A, B, BYTE C, E, REF INT F, G, REF ARRAY BYTE H, I); ENDPROC', 0, 'eight parameters in several groups')
add('PROC P (); INT %s; ENDPROC' % names('B', 64), 0, 'sixty-four locals')
add('PROC P (); INT %s, @C; ENDPROC' % names('B', 64), 14, 'sixty-five locals')
add('PROC P (%s); INT %s; ENDPROC' % (pars(8), names('B', 56)), 0, 'eight parameters and fifty-six locals')
add('PROC P (%s); INT %s; BYTE @C, E; ENDPROC' % (pars(8), names('B', 56)), 14, 'eight parameters and fifty-seven locals')
add('PROC P (); INT %s; BLOCK INT %s; ENDBLOCK; TO 2 DO INT %s; REP ENDPROC' % (names('B', 20), names('C', 20), names('E', 24)), 0, 'sixty-four locals in nested blocks')
add('PROC P (); INT %s; BLOCK INT %s; ENDBLOCK; TO 2 DO INT %s, @F; REP ENDPROC' % (names('B', 20), names('C', 20), names('E', 24)), 14, 'sixty-five locals in blocks side by side')
add('PROC P (); INT %s; BLOCK INT %s; BLOCK BYTE %s, @B1; ENDBLOCK ENDBLOCK ENDPROC' % (names('B', 30), names('B', 30), names('B', 4, 2)), 14, 'the same names anew in inner blocks count again')
add('PROC P (); INT %s; BLOCK INT %s; BLOCK BYTE %s; ENDBLOCK ENDBLOCK ENDPROC' % (names('B', 30), names('B', 30), names('B', 4)), 0, 'the same names anew in inner blocks, just enough')
add('PROC P (); INT %s; IF B1 = 1 THEN BLOCK INT C1 := C2 := 1; ENDBLOCK END ENDPROC' % names('B', 62), 0, 'two names before one value, just enough')
add('PROC P (); INT %s; IF B1 = 1 THEN BLOCK INT C1 := @C2 := 1; ENDBLOCK END ENDPROC' % names('B', 63), 14, 'the second of two names before one value')
add('PROC P (); INT %s; ENDPROC; PROC Q (); INT %s; ENDPROC' % (names('B', 64), names('B', 64)), 0, 'each procedure by itself')
add('PROC P (); INT %s; ENDPROC; PROC Q (); INT %s, @C; ENDPROC' % (names('B', 64), names('B', 64)), 14, 'the second procedure has too many')
add('PROC P (%s); INT %s; ENDPROC; PROC Q (%s, @A9); ENDPROC' % (pars(8), names('B', 56), pars(8)), 14, 'the second procedure has nine parameters')
add('PROC P (%s, @A9); INT %s; ENDPROC' % (pars(8), names('B', 70)), 14, 'too many of both: the ninth parameter is earlier')
add('PROC P (); INT %s, @C; ENDPROC; PROC Q (%s); ENDPROC' % (names('B', 64), pars(9)), 14, 'the earlier procedure decides')
add('EXT PROC (INT, INT, INT, INT, INT, INT, INT, INT, INT) @F', 10, 'a described procedure with nine parameters is another description')
add('MODE M (%s)' % pars(20), 0, 'components are not limited like parameters')
add('DATA D; INT %s ENDDATA' % names('B', 70), 0, 'data variables are not limited like locals')
# order of 13 and 14
add('PROC P (%s, A9); ENDPROC; DATA D; ARRAY (4097) INT @A ENDDATA' % pars(8), 13, 'the places decide before the locals, though later in the text')
add('PROC P (%s, A9); @U := 1 ENDPROC' % pars(8), 10, 'an unknown name decides before the number of parameters')
add('PROC P (%s, A9); REF INT @R; ENDPROC' % pars(8), 12, 'a missing value decides before the number of parameters')
add('PROC P (%s, A9); INT @A1; ENDPROC' % pars(8), 9, 'a double declaration decides before the number of parameters')
add('PROC P (%s, A9) @ENDPROC' % pars(8), 7, 'the syntax decides before the number of parameters')
add('PROC P (%s, A9); A1 := @"a" ENDPROC' % pars(8), 11, 'a misfit decides before the number of parameters')
add('PROC Q (); P(1, 2, 3, 4, 5, 6, 7, 8, 9) ENDPROC; PROC P (%s, @A9); ENDPROC' % pars(8), 14, 'a call of a procedure with nine parameters fits')
# stages pairwise
add('PROC P (); INT @:= 32767; "abc" ENDPROC', 7, 'a mode begins a declaration, which needs a name')
add('PROC P (); INT := 32768; "abc', 0, 'x')
add('PROC P (); INT := @32768; "abc', 5, 'the items come before the syntax, from the left')
add('PROC P (); INT := 32767; @"abc', 4, 'the item that the text ends in comes before the syntax')
add('DATA D; INT A, A ENDDATA; @A', 7, 'the syntax comes before the double declaration')
add('DATA D; INT A; REF INT @R; BYTE B := 256; U C ENDDATA', 12, 'the earliest of missing value, misfit and unknown name')
add('DATA D; INT A; BYTE B := @256; REF INT R; U C ENDDATA', 11, 'the earliest of misfit, missing value and unknown name')
add('DATA D; INT A; @U C; BYTE B := 256; REF INT R ENDDATA', 10, 'the earliest of unknown name, misfit and missing value')
L = [x for x in L if x[2] != 'x']
C += r'''
$A{N := (@A) + 1} || 11 || an operand in brackets is judged inside them
$A{N := 1 + ((@A))} || 11 || a right operand in two brackets
$A{N := (@A) LAND 1} || 11 || an operand of a bit operator in brackets
$A{IF (@A) = 1 THEN END} || 11 || an operand of a comparison in brackets
$A{IF 1 < (@W) THEN END} || 11 || a right operand of a comparison in brackets
$A{N := A((@S))} || 11 || a subscript in brackets
$F{G((@A), 1)} || 11 || a parameter in brackets
$F{N := (@Z())} || 11 || a call without a result in brackets
$A{TO (@A) DO REP} || 11 || a count in brackets
$R{BYTE I := (@N); } || 11 || a local's initial value in brackets
$R{B := (@- 1)} || 11 || a negative in brackets
$R{B := (@(N) + (1))} || 11 || a sum in brackets that begins with a bracket
PROC P () BYTE; RETURN ((@256)) ENDPROC || 11 || a result in brackets of its own
$R{R := (@B)} || 11 || a place of another mode in brackets
$A{W := ("abc"); W := ((S)); T := (T)} || || brackets round strings, arrays and references
DATA D; INT CASE, ENUM, EXITDO, MODE_CONVERT, PRAGMA, WHEN ENDDATA || || names that some compilers keep are ordinary ones
DATA D; INT @Title ENDDATA || 7 || a keyword in any case of its letters is no name
PROC P ();\n  INT @by;\nENDPROC || 7 || a keyword that occurs in no module
PROC @Code (); ENDPROC || 7 || a keyword as a procedure's name
MODE M (INT @REAL) || 7 || a keyword as a component's name
DATA D; INT A_1, a1, A__1, B2_ ENDDATA || || underscores and digits in names
DATA D; INT A_1, @a_1 ENDDATA || 9 || underscores count, case does not
DATA D; INT ABCDEFGHIJKLMNOPQRSTUVWXYZABCDEFGHIJKLMNOPQRSTUVWXYZ1, ABCDEFGHIJKLMNOPQRSTUVWXYZABCDEFGHIJKLMNOPQRSTUVWXYZ2 ENDDATA || || all characters of a name count
DATA D; INT N, U ENDDATA; PROC P (); N := R.@V ENDPROC; DATA E; U R ENDDATA || 10 || a variable's name used as a record mode later: no components
MODE M (INT A); PROC Q (); P(E) ENDPROC; PROC P (REF @M M); ENDPROC; DATA D; M E ENDDATA || 10 || before the hidden record mode is reached, the parameter has that mode
EXT PROC () INT @F, INBYTE || 10 || another name before INBYTE
MODE M (INT A, BYTE B); DATA D; M E := @(1, 2, (3(1))) ENDDATA || 11 || a list too many in a record's list, with a repetition inside
'''
C += r'''
PROC P (); N := X.M.A ENDPROC; MODE M (INT A); MODE K (REF @M M); DATA D; INT N; K X := (E); M E ENDDATA || 10 || before the hidden record mode is reached, the component has that mode
PROC P (INT A); BLOCK INT B := @A; INT A; ENDBLOCK ENDPROC || 10 || a later local of the same block, though a parameter has the name
MODE M (INT A); PROC P (); BLOCK INT M; TO 2 DO REF @M X := E; REP ENDBLOCK ENDPROC; DATA D; M E ENDDATA || 10 || a record mode hidden two blocks outside
DATA D; REF INT A := B := C, @E; INT C ENDDATA || 12 || two references share a value, the third has none
DATA D; REF INT R := N; INT N ENDDATA; PROC P (); IF R = N AND R :=: N THEN END ENDPROC || || one reference compared by its contents and by its place
'''
C += r'''
PROC Q (INT A); ENDPROC; PROC Z (); ENDPROC; {Z(@Q(1))} || 11 || a procedure without a result where nothing is wanted
PROC Q (INT A); ENDPROC; {RETURN (@Q(1))} || 11 || a procedure without a result behind a RETURN that wants nothing
$N PROC Q (INT A); ENDPROC; {N := B := @Q(1)} || 11 || a procedure without a result, before the different modes of the destinations
$F{N := B := @Z()} || 11 || a call without a result, before the different modes of the destinations
'''

# The longest chains of each kind: what stands one behind the other must take no stack, and the earliest wrong is answered wherever it is.
_D = 'DATA D; INT N; BYTE B; ENDDATA; '
def _p(statement, before=_D): return before + 'PROC P (); ' + statement + ' ENDPROC'
add(_p('N := ' + '- ' * 4060 + 'N'), 0, 'the longest row of signs')
add(_p('B := @' + '- ' * 3000 + 'N'), 11, 'the outermost sign of a long row gives INT')
add(_p('N := ' + '- ' * 3000 + '@U'), 10, 'an unknown name behind a long row of signs')
add(_p('N := LENGTH @' + '- ' * 3000 + 'N'), 11, 'LENGTH of a long row of signs')
add(_p('N := - ABS ' * 1 + '- ' * 2000 + 'LENGTH @N'), 11, 'LENGTH of an INT inside a long row of signs')
add(_p('N := ' + '+ BYTE ' * 2000 + 'N'), 0, 'signs and BYTE by turns')
add(_p('B := BYTE ' + '- ' * 3000 + 'N'), 0, 'BYTE outside a long row of signs')
add(_p('N := ' + ' + '.join(['N'] * 2030)), 0, 'the longest chain of operands')
add(_p('N := @U + ' + ' + '.join(['N'] * 1000) + ' + V'), 10, 'the first and the last operand of a long chain are unknown')
add(_p('N := ' + ' + '.join(['N'] * 1000) + ' + @V'), 10, 'the last operand of a long chain is unknown')
add(_p('N := ' + ' + '.join(['N'] * 500) + ' + @"a" + ' + ' + '.join(['N'] * 500) + ' + V'), 11, 'an operand in the midst of a long chain does not fit')
add(_p('B := ' + ' LAND '.join(['B'] * 2030)), 0, 'a long chain of BYTEs')
add(_p('B := @' + ' LAND '.join(['B'] * 1000) + ' LAND N'), 11, 'the last operand of a chain of BYTEs is an INT')
add(_p('B := @' + ' LAND '.join(['B'] * 500) + ' LAND N LAND ' + ' LAND '.join(['B'] * 500)), 11, 'one operand of a chain of BYTEs is an INT')
add(_p('B := @N LAND ' + ' LAND '.join(['B'] * 1000)), 11, 'the first operand of a chain of BYTEs is an INT')
add(_p('B := ' + ' LOR '.join(['B LAND 255'] * 700) + ' NEV B'), 0, 'logical operators of three kinds on BYTEs')
add(_p('B := @B LAND B + B'), 11, 'a sum of BYTEs is an INT')
_R = 'MODE R (REF R S, INT K); DATA D; R A := (A, 1); INT N; ENDDATA; '
add(_p('A' + '.S' * 2020 + '.K := 1', _R), 0, 'the longest row of components, as a destination')
add(_p('N := A' + '.S' * 2020 + '.K', _R), 0, 'the longest row of components, in an expression')
add(_p('N := A' + '.S' * 1000 + '.@T' + '.S' * 900, _R), 10, 'an unknown component in the midst of many')
add(_p('N := @A' + '.S' * 1000 + '.K' + '.S' * 900, _R), 11, 'a component of an INT in the midst of many')
add(_p('N := @A' + '.S' * 1900, _R), 11, 'a row of components ends in a record')
_A = 'DATA D; ARRAY (2) REF ARRAY REF ARRAY INT A := (X, X); INT N; ARRAY (0) REF ARRAY INT X; ENDDATA; '
add(_p('N := A(N)(N)(N)', _A), 0, 'three subscripts')
add(_p('N := @A(N)(N)(N)(N)', _A), 11, 'a subscript of an INT')
add(_p('N := A(@"a")(N)(U)', _A), 11, 'the first subscript is wrong before the last')
add(_p('N := ' * 2030 + '1'), 0, 'the longest row of destinations')
add(_p('@B := ' + 'N := ' * 1500 + '1'), 11, 'the first of many destinations has another mode')
add(_p('@N := ' + 'N := ' * 700 + 'B := ' + 'N := ' * 700 + '1'), 11, 'one of many destinations has another mode')
add(_p('N := ' * 1000 + '@U := ' + 'N := ' * 500 + 'V := 1'), 10, 'an unknown destination among many')
add(_p('N := B := @U := 1'), 10, 'an unknown destination behind two of different modes')
_F = 'PROC F (INT A, B, C, D, E, F, G, H); ENDPROC; DATA D; INT N; ENDDATA; '
add(_p('@F(' + ','.join(['N'] * 2000) + ')', _F), 11, 'a call with the most expressions')
add(_p('F(' + ','.join(['N'] * 7) + ',@"a",' + ','.join(['N'] * 1000) + ',U)', _F), 11, 'the eighth of many expressions does not fit')
add(_p('F(' + ','.join(['N'] * 8) + ',"a",' + ','.join(['N'] * 1000) + ',@U)', _F), 10, 'what has no parameter is brought to nothing, and its names are looked for')
add('DATA D; ARRAY (2030) INT A := (' + ','.join(['1'] * 2030) + '); ENDDATA', 0, 'the longest list of values')
add('DATA D; ARRAY (2029) INT A := @(' + ','.join(['1'] * 2030) + '); ENDDATA', 11, 'a value too many in a long list')
add('DATA D; ARRAY (2000) BYTE A := (' + ','.join(['1'] * 1000) + ',@256,' + ','.join(['1'] * 998) + ',U); ENDDATA', 11, 'a value in the midst of a long list does not fit')
add('DATA D; ARRAY (2000) INT A := (@U,' + ','.join(['1'] * 1999) + '); ENDDATA', 10, 'the first value of a long list is unknown')
add('DATA D; ARRAY (2402) INT A := (1(1000),2,' + ','.join(['3(2)'] * 700) + ',4); ENDDATA', 0, 'many values with repetitions')
add('MODE M (' + 'REF ARRAY ' * 2030 + 'INT A)', 0, 'the longest row of REF ARRAY')
add('MODE M (' + 'REF ARRAY () ' * 1010 + 'INT A)', 0, 'the longest row of REF ARRAY with brackets')
add('MODE M (' + 'REF ARRAY ' * 2000 + '@M2 A)', 10, 'an unknown record mode behind many REF ARRAY')
def _mix(d): return 'N' if d == 0 else 'N + N NEV N LOR N LAND N * - (' + _mix(d - 1) + ')'
add(_p('N := ' + _mix(32)), 0, 'all levels of operators inside one another as deep as can be')
def _calls(d): return 'N' if d == 0 else 'N + N NEV N LOR N LAND N * - F(1, ' + _calls(d - 1) + ')'
add(_p('N := ' + _calls(32), 'DATA D; INT N; ENDDATA; PROC F (INT A, B) INT; RETURN (1) ENDPROC; '), 0, 'calls inside one another as deep as can be')
