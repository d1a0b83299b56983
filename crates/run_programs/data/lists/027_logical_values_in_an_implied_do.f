      LOGICAL P(4)
      DATA P/.TRUE.,.FALSE.,.TRUE.,.FALSE./
      WRITE (6,10) (I,P(I),I=1,4),(P(I).AND.P(1),I=4,1,-1),
     1 (I.GT.2,I=1,4)
   10 FORMAT (4(I2,L2),8L2)
      END
