      LOGICAL WHILE(4)
      DATA WHILE/3*.TRUE.,.FALSE./
      I=1
      DO 10 WHILE (WHILE(I))
   10 I=I+1
      WHILE(I)=.TRUE.
      WRITE (6,20) I,WHILE
   20 FORMAT (I4,4L2)
      END
