#include "fixif.h"
STEP	(	32	,	1	,	1	,	1	)	{	IN	(	u0	,	16	)	;	a	=	1	;	a	+=	MUL	(	1	,	u0	,	1	)	;	a	+=	MUL	(	1	,	s0	,	0	)	;	r0	=	LOW	(	SAR	(	a	,	1	)	,	16	)	;	OUT	(	0	,	r0	)	;	s0	=	r0	;	}