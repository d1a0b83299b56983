      INTEGER A(7)
      DO 20 I=1,7
      DO 10 J=1,3
      GO TO (20,10),I-2
      IF (J-I) 10,20,10
   10 A(I)=A(I)+J
   20 A(I)=A(I)+10
      WRITE (6,30) I,J,A
   30 FORMAT (9I3)
      END
