      integer AverageOfAll
      averageofall=4
      AVERAGEOFALL=AverageOfAll+1
      write (6,10) aVERAGEoFaLL
   10 format (i2)
      end
