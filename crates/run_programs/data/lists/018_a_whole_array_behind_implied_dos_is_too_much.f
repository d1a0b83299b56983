      INTEGER A(65534)
      WRITE (6,10) I
      WRITE (6,10) ((J,J=1,0),I=1,2),A
   10 FORMAT (80I1)
      END
