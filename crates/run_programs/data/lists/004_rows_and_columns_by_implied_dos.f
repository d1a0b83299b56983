      INTEGER A(3,2)
      DO 10 I=1,3
      DO 10 J=1,2
   10 A(I,J)=10*I+J
      WRITE (6,20) ((A(I,J),J=1,2),I=1,3)
      WRITE (6,30) ((A(I,J),I=1,3),J=1,2)
      WRITE (6,30) A
   20 FORMAT (2I3)
   30 FORMAT (3I3)
      END
