   10 INTEGER A(3)
      A(1)=1
      IF (A(1)) 20,10,20
   20 END
