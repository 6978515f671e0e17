10	PRINT	"A";	B$+1
20	A	=		B$
