      INTEGER A(3)
      IF (A(1,1)) 10,10,10
   10 END
