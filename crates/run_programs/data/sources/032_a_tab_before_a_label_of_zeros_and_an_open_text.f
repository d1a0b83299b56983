  00  I=	'
      END
