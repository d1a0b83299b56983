      INTEGER A(2),X
      A(1)=2
      A(2)=4
      DO 10 I=A(1),(A(2)),A(1)
   10 X=X+I
      WRITE (6,20) X,-A(1)*(A(2)-1)
   20 FORMAT (2I3)
      END
